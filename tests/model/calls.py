"""What store and ledger share: the calls of a list as raw arguments, the form of an answer,
and the conditions 1 to 6 of document 01, 'Refusals from the input'. Nothing else.
"""
from collections import namedtuple

# An answer is Done with its values, or Refused with its number and what it carries.
Done = namedtuple("Done", "values")
Refused = namedtuple("Refused", "number carried")

# A call is the making of its token, where it takes one, then the operation [01:LG16].
Insert = namedtuple("Insert", "key name value p u nonce nonces ids")
Erase = namedtuple("Erase", "id")
Find = namedtuple("Find", "key name value output")
Count = namedtuple("Count", "key name value")
Compact = namedtuple("Compact", "key nonces")
# Puts the store in form; takes nothing but the store [02:W2.6].
Order = namedtuple("Order", "")
# Counts rows that do not go together; takes nothing but the store [check:1].
Check = namedtuple("Check", "")
Test = namedtuple("Test", "key name value id")
# What each part of a joint find is made from, in order [02:W4.24].
Part = namedtuple("Part", "key name value")
JointFind = namedtuple("JointFind", "parts output")


def named_in(call):
    """The fields with their values that a call names [01:LG13]."""
    made = call.parts if isinstance(call, JointFind) else [call] if hasattr(call, "name") else []
    return [(part.name, part.value) for part in made]


def has_output(call):
    return isinstance(call, (Find, JointFind))


def compared(call, answer):
    """What is compared of a store's answer with the ledger's: the ledger knows no rows, so those that a count looked at
    are left out [02:W3.8]."""
    if isinstance(call, Count) and isinstance(answer, Done):
        return Done(answer.values[:1])
    return answer


INSERT_TOKEN = 173
FIND_TOKEN = 96
COUNT_TOKEN = 32
COMPACT_TOKEN = 32
MARK_TOKEN = 32
PART = 128


def first(conditions):
    """The first condition that holds gives the refusal [01:RI1]; None where none holds.

    `conditions` is an iterator of (number, holds), so that a later condition is
    only looked at where the earlier ones do not hold.
    """
    for number, holds in conditions:
        if holds:
            return Refused(number, ())
    return None


def field_lengths_wrong(name, value):
    return not (1 <= len(name) <= 255 and len(value) <= 1024)


def insert_token_conditions(key, name, value, p, u, nonce):
    yield 1, len(key) != 32
    yield 2, field_lengths_wrong(name, value)
    yield 3, p > 15 or u > p
    yield 4, len(nonce) != 12


def field_token_conditions(key, name, value):
    """Of the find token, of the count token, of RL and of a part of a joint find."""
    yield 1, len(key) != 32
    yield 2, field_lengths_wrong(name, value)


def compact_token_conditions(key):
    yield 1, len(key) != 32


def parts_conditions(parts):
    """Of the makings of a joint find's parts: in order, and the first that is refused ends the call [02:W4.24 W4.25]."""
    for part in parts:
        yield from field_token_conditions(*part)


def nonce_bytes(j):
    """How many an insert of j ids brings: 12 for each id, for the counter, and for each id again [02:W4.11]."""
    return 12 * (2 * j + 1)


def insert_conditions(token_length, nonces, ids):
    yield 4, len(nonces) != nonce_bytes(len(ids) // 16)
    yield 5, len(ids) % 16 != 0 or not 1 <= len(ids) // 16 <= 64
    yield 6, token_length != INSERT_TOKEN


def erase_conditions(id):
    yield 5, len(id) != 16


def find_conditions(token_length):
    yield 6, token_length != FIND_TOKEN


def count_conditions(token_length):
    yield 6, token_length != COUNT_TOKEN


def compact_conditions(token_length, nonces):
    yield 4, len(nonces) % 12 != 0
    yield 6, token_length != COMPACT_TOKEN


def test_conditions(id, token_length):
    """[02:W4.15 W4.16]"""
    yield 5, len(id) != 16
    yield 6, token_length != MARK_TOKEN


def joint_find_conditions(parts_length):
    """1 to 8 parts [02:W4.18]."""
    yield 6, parts_length not in [PART * n for n in range(1, 9)]
