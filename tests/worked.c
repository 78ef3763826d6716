/* The worked list of calls of document 01 (G1 to G8) through the C interface, then a list whose ids have
 * several entries, one with rows out of form, the rows that a count looks at, tests and joint finds
 * (document 02, requests 1 to 4), and checks, with every answer and find looked at. Each argument has a heap block of
 * exactly its size, so that valgrind sees a read or write past it; tests/run runs it so. */
#include "../include/mazhkuri.h"

#include <stdio.h>
#include <stdlib.h>
#include <string.h>

static int failed;

static void expect(const char *what, int64_t got, int64_t wanted) {
  if (got == wanted) return;
  printf("%s: got %lld, expected %lld\n", what, (long long)got, (long long)wanted);
  failed = 1;
}

/* A heap block of n bytes with the given content, or with the given byte. */
static uint8_t *block(const void *content, int byte, size_t n) {
  uint8_t *p = malloc(n ? n : 1);
  if (!p) exit(2);
  if (content)
    memcpy(p, content, n);
  else
    memset(p, byte, n);
  return p;
}

static const char *const HUE[2] = {"hue", "red"};
static const char *const SIZE[2] = {"size", "L"};
static const char *const BLUE[2] = {"hue", "blue"};
enum { HEADER = 10 };

static uint8_t *key, *store;
static size_t store_length;

/* The ids of a word: each letter 16 times. */
static uint8_t *ids_of(const char *letters) {
  size_t n = strlen(letters);
  uint8_t *ids = block(NULL, 0, 16 * n);
  for (size_t i = 0; i < n; i++) memset(ids + 16 * i, letters[i], 16);
  return ids;
}

static uint8_t *bytes_of(const char *text) { return block(text, 0, strlen(text)); }

static void insert(const char *what, const char *const field[2], uint64_t u, const char *letters,
                   int64_t wanted) {
  size_t n = strlen(letters);
  uint8_t *name = bytes_of(field[0]), *value = bytes_of(field[1]), *ids = ids_of(letters);
  uint8_t *nonce = block(NULL, 7, 12), *nonces = block(NULL, 9, MAZHKURI_INSERT_NONCES(n));
  uint8_t *token = block(NULL, 0, MAZHKURI_INSERT_TOKEN);
  expect("insert token",
         mazhkuri_insert_token(key, 32, name, strlen(field[0]), value, strlen(field[1]), 1, u, nonce,
                               12, token),
         MAZHKURI_INSERT_TOKEN);
  expect(what,
         mazhkuri_insert(store, store_length, ids, 16 * n, nonces, MAZHKURI_INSERT_NONCES(n), token,
                         MAZHKURI_INSERT_TOKEN),
         wanted);
  free(name), free(value), free(ids), free(nonce), free(nonces), free(token);
}

static void erase(const char *what, const char *letter, int64_t wanted) {
  uint8_t *id = ids_of(letter);
  expect(what, mazhkuri_erase(store, store_length, id, 16), wanted);
  free(id);
}

/* A find, or a joint find of some parts, gives these ids, and nothing but their bytes is written: with room to spare,
 * with just enough, and refused with one byte less. */
static void gives(const char *what, const uint8_t *token, size_t parts, const char *letters) {
  size_t n = strlen(letters), room = 16 * n;
  uint8_t *ids = ids_of(letters);
  for (int spare = 20; spare >= -1; spare -= spare > 0 ? 20 : 1) {
    if (spare < 0 && room == 0) break;
    size_t length = room + (size_t)spare;
    uint8_t *output = block(NULL, 0xee, length);
    int64_t told = parts ? mazhkuri_joint_find(store, store_length, token, 128 * parts, output, length)
                         : mazhkuri_find(store, store_length, token, 96, output, length);
    if (spare >= 0) {
      expect(what, told, (int64_t)n);
      expect("the ids found", memcmp(output, ids, room), 0);
    } else {
      expect("find without room", told, -(18 + 256 * (int64_t)n));
      expect("its refusal", mazhkuri_refusal(told), MAZHKURI_OUTPUT_LENGTH);
      expect("what it carries", mazhkuri_carried(told), (int64_t)n);
    }
    for (size_t i = spare < 0 ? 0 : room; i < length; i++) expect("output as lent", output[i], 0xee);
    free(output);
  }
  free(ids);
}

static void find(const char *what, const char *const field[2], const char *letters) {
  uint8_t *name = bytes_of(field[0]), *value = bytes_of(field[1]), *token = block(NULL, 0, MAZHKURI_FIND_TOKEN);
  expect("find token",
         mazhkuri_find_token(key, 32, name, strlen(field[0]), value, strlen(field[1]), token),
         MAZHKURI_FIND_TOKEN);
  gives(what, token, 0, letters);
  free(name), free(value), free(token);
}

/* The parts of a joint find, one after the other. */
static uint8_t *parts_of(const char *const *const *fields, size_t n) {
  uint8_t *parts = block(NULL, 0, 128 * n);
  for (size_t i = 0; i < n; i++) {
    uint8_t *name = bytes_of(fields[i][0]), *value = bytes_of(fields[i][1]), *part = block(NULL, 0, MAZHKURI_PART_TOKEN);
    expect("part token",
           mazhkuri_part_token(key, 32, name, strlen(fields[i][0]), value, strlen(fields[i][1]), part),
           MAZHKURI_PART_TOKEN);
    memcpy(parts + 128 * i, part, 128);
    free(name), free(value), free(part);
  }
  return parts;
}

static int joint_finds, tests_made;

static void join(const char *what, const char *const *const *fields, size_t n, const char *letters) {
  uint8_t *parts = parts_of(fields, n);
  gives(what, parts, n, letters);
  joint_finds++;
  free(parts);
}

/* A joint find that is refused and leaves what it was lent. */
static void join_refused(const char *what, const uint8_t *parts, size_t length, int64_t wanted) {
  uint8_t *output = block(NULL, 0xee, 16), *exact = block(parts, 0, length), *before = block(store, 0, store_length);
  expect(what, mazhkuri_joint_find(store, store_length, exact, length, output, 16), wanted);
  expect("a refusal leaves the output", output[0] == 0xee && output[15] == 0xee, 1);
  expect("a refusal leaves the store", memcmp(store, before, store_length), 0);
  free(output), free(exact), free(before);
}

static void test(const char *what, const char *const field[2], const char *letter, int64_t wanted) {
  uint8_t *name = bytes_of(field[0]), *value = bytes_of(field[1]), *id = ids_of(letter), *token = block(NULL, 0, MAZHKURI_MARK_TOKEN);
  expect("mark token",
         mazhkuri_mark_token(key, 32, name, strlen(field[0]), value, strlen(field[1]), token),
         MAZHKURI_MARK_TOKEN);
  expect(what, mazhkuri_test(store, store_length, id, 16, token, 32), wanted);
  tests_made++;
  free(name), free(value), free(id), free(token);
}

/* What stands in the rows that are lent: a refused count leaves it. */
static const uint64_t LENT = 0xa5a5a5a5a5a5a5a5;
static int counts, refused_counts;

/* A count by both functions, with a token of so many bytes; the rows that were told. */
static uint64_t count_by(const char *what, const uint8_t *token, size_t n, int64_t wanted) {
  uint64_t *rows = (uint64_t *)block(&LENT, 0, sizeof LENT), told;
  expect(what, mazhkuri_count(store, store_length, token, n), wanted);
  expect(what, mazhkuri_count_tallied(store, store_length, token, n, rows), wanted);
  told = *rows;
  free(rows);
  counts++, refused_counts += wanted < 0;
  if (wanted < 0) expect("a refused count leaves the rows", told == LENT, 1);
  return told;
}

static uint8_t *count_token(const char *const field[2]) {
  uint8_t *name = bytes_of(field[0]), *value = bytes_of(field[1]);
  uint8_t *token = block(NULL, 0, MAZHKURI_COUNT_TOKEN);
  expect("count token",
         mazhkuri_count_token(key, 32, name, strlen(field[0]), value, strlen(field[1]), token), 32);
  free(name), free(value);
  return token;
}

/* The rows are at most 2 c (p + 1) times the used rows of C [02:W3.11]. */
static void count(const char *what, const char *const field[2], int64_t wanted) {
  size_t m = 256u * store[2] + store[3], c = 256u * store[4] + store[5], used = 0;
  uint8_t *token = count_token(field);
  for (size_t i = 0; i < c; i++) used += store[HEADER + 110 * m + 61 * i];
  expect("rows of a count", count_by(what, token, 32, wanted) <= 2 * c * (store[1] + 1u) * used, 1);
  free(token);
}

static void compact(const char *what, size_t nonces, int64_t wanted) {
  uint8_t *token = block(NULL, 0, MAZHKURI_COMPACTION_TOKEN), *bytes = block(NULL, 5, 12 * nonces);
  expect("compaction token", mazhkuri_compaction_token(key, 32, token), 32);
  expect(what, mazhkuri_compact(store, store_length, bytes, 12 * nonces, token, 32), wanted);
  free(token), free(bytes);
}

static int checks, refused_checks;

/* A check: the seven numbers, a digit each, and their sum; a refused one leaves what it was lent [check:14]. */
static void check(const char *what, const char *digits, int64_t refused) {
  uint8_t *before = block(store, 0, store_length);
  uint64_t *numbers = (uint64_t *)block(NULL, 0xa5, 7 * sizeof LENT);
  int64_t sum = 0;
  for (size_t i = 0; !refused && i < 7; i++) sum += digits[i] - '0';
  expect(what, mazhkuri_check(store, store_length, numbers), refused ? refused : sum);
  for (size_t i = 0; i < 7; i++) expect(what, (int64_t)numbers[i], refused ? (int64_t)LENT : digits[i] - '0');
  expect("a check leaves the store", memcmp(store, before, store_length), 0);
  checks++, refused_checks += refused < 0;
  free(before), free(numbers);
}

static void order(const char *what, int64_t wanted) {
  expect(what, mazhkuri_order(store, store_length), wanted);
}

/* Every call on pointers of length 0, and the primitives on their shortest inputs. */
static void empty(void) {
  uint8_t *none = block(NULL, 0, 0), *out = block(NULL, 1, 32);
  uint8_t *token = block(NULL, 0, MAZHKURI_INSERT_TOKEN);
  expect("hash of nothing", mazhkuri_sha256(none, 0, out), 0);
  expect("its first byte", out[0], 0xe3);
  expect("F of nothing", mazhkuri_hmac(none, 0, none, 0, out), 0);
  expect("its first byte", out[0], 0xb6);
  expect("E without a key", mazhkuri_chacha20(none, 0, none, 0, token, 0), -1);
  expect("E without a nonce", mazhkuri_chacha20(key, 32, none, 0, token, 0), -4);
  expect("no key", mazhkuri_insert_token(none, 0, none, 0, none, 0, 0, 0, none, 0, token), -1);
  expect("no name", mazhkuri_find_token(key, 32, none, 0, none, 0, token), -2);
  expect("no name", mazhkuri_count_token(key, 32, none, 0, none, 0, out), -2);
  expect("no key", mazhkuri_compaction_token(none, 0, out), -1);
  expect("no name", mazhkuri_mark_token(key, 32, none, 0, none, 0, out), -2);
  expect("no key", mazhkuri_part_token(none, 0, none, 0, none, 0, token), -1);
  expect("making in no bytes", mazhkuri_make(0, 1, 1, 1, 1, none, 0), -8);
  expect("making of no row of R", mazhkuri_make(0, 1, 1, 1, 0, none, 0), -7);
  expect("insert of nothing", mazhkuri_insert(none, 0, out, 0, out, 0, out, 0), -4);
  expect("order of nothing", mazhkuri_order(none, 0), -10);
  expect("erase of nothing", mazhkuri_erase(none, 0, out, 0), -5);
  expect("find by nothing", mazhkuri_find(none, 0, out, 0, token, 0), -6);
  expect("find in nothing", mazhkuri_find(none, 0, token, 96, out, 0), -10);
  expect("joint find by nothing", mazhkuri_joint_find(none, 0, token, 0, out, 0), -6);
  expect("joint find in nothing", mazhkuri_joint_find(none, 0, token, 128, out, 0), -10);
  expect("test of nothing", mazhkuri_test(none, 0, out, 0, token, 0), -5);
  expect("test by nothing", mazhkuri_test(none, 0, out, 16, token, 0), -6);
  expect("test in nothing", mazhkuri_test(none, 0, out, 16, token, 32), -10);
  expect("count by nothing", mazhkuri_count(none, 0, out, 0), -6);
  uint64_t *rows = (uint64_t *)block(&LENT, 0, sizeof LENT);
  expect("count by nothing", mazhkuri_count_tallied(none, 0, out, 0, rows), -6);
  expect("count in nothing", mazhkuri_count_tallied(none, 0, out, 32, rows), -10);
  expect("its rows", *rows == LENT, 1);
  free(rows);
  uint64_t *numbers = (uint64_t *)block(NULL, 0xa5, 7 * sizeof LENT);
  expect("check of nothing", mazhkuri_check(none, 0, numbers), -10);
  expect("its numbers", numbers[0] == LENT && numbers[6] == LENT, 1);
  free(numbers);
  expect("compaction of nothing", mazhkuri_compact(none, 0, out, 0, out + 1, 0), -6);
  free(none), free(out), free(token);
}

static void make(uint64_t p, uint64_t m, uint64_t c, uint64_t s, uint64_t r) {
  store_length = MAZHKURI_STORE(m, c, s, r);
  store = block(NULL, 0xaa, store_length);
  expect("make", mazhkuri_make(p, m, c, s, r, store, store_length), 0);
  expect("its version", store[0], 2);
}

/* Each id is found once, at its first place [02:W1.1 W1.2]; find tries room for the different ids, where there
 * are more entries, and a byte less: 18 with the number of different ids [02:W1.3]. Count and erase tell of
 * entries [02:W1.4 W1.6]. */
static void repeated(void) {
  make(1, 9, 6, 6, 9);
  insert("R1", HUE, 0, "AABA", 4);
  find("R1", HUE, "AB");
  count("R1", HUE, 4);
  insert("R2", HUE, 1, "CBA", 3);
  find("R2", HUE, "ABC");
  count("R2", HUE, 7);
  erase("R4", "A", 4);
  find("R4", HUE, "BC");
  insert("R5", HUE, 0, "A", 5);
  find("R5", HUE, "BAC");
  insert("R5", HUE, 1, "AB", 5);
  find("R5", HUE, "BAC");
  compact("R6", 4, 2 * 4294967296 + 4);
  find("R6", HUE, "BAC");
  erase("R7", "B", 3);
  erase("R7", "A", 2);
  find("R7", HUE, "C");
  count("R7", HUE, 10);
  check("R7", "0000000", 0);
  free(store);
}

/* Each call but order is refused by 20 and leaves the store; order answers the used rows and leaves the store as
 * it was before it was put out of form [02:W2.6 W2.7 W2.8 W2.11]. */
static void cured(const char *what, const uint8_t *kept, int64_t rows) {
  uint8_t *before = block(store, 0, store_length);
  uint8_t *some = block(NULL, 1, MAZHKURI_INSERT_TOKEN), *output = block(NULL, 0xee, 16);
  expect(what, mazhkuri_insert(store, store_length, some, 16, some, 36, some, 173), -20);
  expect(what, mazhkuri_erase(store, store_length, some, 16), -20);
  expect(what, mazhkuri_find(store, store_length, some, 96, output, 16), -20);
  count_by(what, some, 32, -20);
  expect(what, mazhkuri_compact(store, store_length, some, 0, some, 32), -20);
  expect(what, mazhkuri_test(store, store_length, some, 16, some, 32), -20);
  expect(what, mazhkuri_joint_find(store, store_length, some, 128, output, 16), -20);
  check(what, "", -20);
  expect("its refusal", mazhkuri_refusal(-20), 20);
  expect("a refusal leaves the store", memcmp(store, before, store_length), 0);
  expect("a refusal leaves the output", output[0] == 0xee && output[15] == 0xee, 1);
  order(what, rows);
  expect("the store in form", memcmp(store, kept, store_length), 0);
  order("order of what is in form", rows);
  expect("the store again", memcmp(store, kept, store_length), 0);
  free(before), free(some), free(output);
}

/* Rows out of form in each table, and an order [02:W2.1 W2.2 W2.3 W2.6 W2.8]. */
static void rows(void) {
  static const size_t width[5] = {61, 49, 61, 45, 61}, in_use[5] = {5, 5, 3, 3, 5};
  size_t start = HEADER;
  make(1, 6, 6, 6, 6);
  order("an empty store", 0);
  insert("O1", HUE, 0, "BA", 2);
  order("O1", 8);
  insert("O2", HUE, 1, "C", 1);
  insert("O2", HUE, 0, "BB", 4);
  order("O2", 21);
  find("O2", HUE, "BAC");
  uint8_t *kept = block(store, 0, store_length), other[61];
  for (int t = 0; t < 5; t++) {
    size_t w = width[t], used = in_use[t];
    uint8_t *table = store + start, *last = table + (used - 1) * w;
    memcpy(other, table, w), memcpy(table, last, w), memcpy(last, other, w);
    /* S has two equal rows, so that an exchange of first and last may change nothing there alone */
    if (memcmp(store, kept, store_length)) cured("two rows exchanged", kept, 21);
    memcpy(table + 5 * w, last, w), memset(last, 0, w);
    cured("a gap", kept, 21);
    table[5 * w + 1] = 1;
    cured("a byte left over after the mark", kept, 21);
    table[6 * w - 1] = 0x80;
    cured("a byte left over at the end of the table", kept, 21);
    start += 6 * w;
  }
  find("O2 again", HUE, "BAC");
  count("O2 again", HUE, 5);
  erase("O3", "B", 3);
  order("O3", 12);
  compact("O4", 3, 2 * 4294967296 + 3);
  order("O4", 8);
  find("O4", HUE, "AC");
  store[HEADER + 61] = 2;
  order("a mark", -11);
  store[0] = 1;
  order("version 1", -10);
  free(kept);
  free(store);
}

/* A count in the store as it is: so many, and so many rows looked at; a refused one leaves them. */
static void looks(const char *what, int64_t wanted, int64_t rows) {
  uint8_t *token = count_token(HUE);
  uint64_t told = count_by(what, token, 32, wanted);
  if (wanted >= 0) expect(what, (int64_t)told, rows);
  free(token);
}

/* These are the used rows of C: a letter l for a row below every tag, h for one above. */
static void c_rows(const char *rows) {
  size_t m = 256u * store[2] + store[3], c = 256u * store[4] + store[5];
  uint8_t *table = store + HEADER + 110 * m;
  memset(table, 0, 61 * c);
  for (size_t i = 0; rows[i]; i++) memset(table + 61 * i, rows[i] == 'h' ? 0xff : 0, 61), table[61 * i] = 1;
}

/* The rows that a count looks at, where the order of tags does not matter: with one used row each lookup looks at
 * it; rows below every tag are looked at by each, and of those above the first [02:W3.2 W3.3 W3.4 W3.5 W3.7 W3.8]. */
static void tallied(void) {
  uint8_t *token = count_token(HUE);
  make(1, 4, 4, 4, 4);
  looks("an empty table", 0, 0);
  insert("one id", HUE, 0, "A", 1);
  looks("anchor 1, counters 1 and 2, then anchor 1 and counter 1", 1, 5);
  uint8_t *kept = block(store, 0, store_length);
  compact("it", 1, 4294967296 + 1);
  looks("anchors 1 and 2, counter 2, then anchor 1 and counter 1", 1, 5);
  static const struct {
    const char *rows;
    int64_t looked;
  } made[] = {{"l", 4}, {"lll", 12}, {"llll", 16}, {"h", 4}, {"hhhh", 4}, {"lh", 8}, {"llh", 12}, {"llhh", 12}};
  for (size_t i = 0; i < sizeof made / sizeof made[0]; i++) c_rows(made[i].rows), looks(made[i].rows, 0, made[i].looked);
  c_rows("hl");
  looks("rows out of order", -20, 0);
  memcpy(store, kept, store_length);
  looks("as before", 1, 5);
  store[HEADER + 440 + 45] ^= 1; /* the first number in the row */
  looks("damage", -13, 0);
  store[HEADER + 440] = 2;
  looks("a mark", -11, 0);
  store[0] = 1;
  looks("version 1", -10, 0);
  count_by("a token too short", token, 31, -6);
  free(kept);
  free(store);
  make(1, 1, 1, 1, 1);
  insert("one id", HUE, 0, "A", 1);
  looks("c counters: anchor 1 and counter 1, twice", 1, 4);
  compact("it", 1, 4294967296 + 1);
  looks("c anchors: anchor 1 and counter 2, then anchor 1 and counter 1", 1, 4);
  free(store);
  free(token);
}

/* Tests, and joint finds of 1 to 8 parts: in the order of the field with the fewest made, the earlier on a tie, 18 by the ids
 * kept, an erased id in none [02:W4.14 W4.17 W4.19 W4.20 W4.21 W4.23]; 21 [02:W4.28]; 6 and 13 [02:W4.18 W4.22]. */
static void jointly(void) {
  const char *const *red_and_l[] = {HUE, SIZE}, *const *l_and_red[] = {SIZE, HUE}, *const *red_and_blue[] = {HUE, BLUE};
  const char *const *many[9] = {SIZE, HUE, SIZE, HUE, SIZE, HUE, SIZE, HUE, SIZE};
  make(1, 8, 6, 6, 7);
  insert("J1", HUE, 0, "ABC", 3);
  insert("J1", SIZE, 1, "CA", 2);
  join("J1", red_and_l, 2, "CA");
  join("J1", l_and_red, 2, "CA");
  join("J1", red_and_l, 1, "ABC");
  for (size_t n = 2; n <= 8; n++) join("J1", many, n, "CA");
  test("J2", HUE, "A", 1);
  test("J2", SIZE, "A", 1);
  test("J2", SIZE, "B", 0);
  test("J2", BLUE, "A", 0);
  join("J2", red_and_blue, 2, "");
  insert("J3", SIZE, 0, "D", 1);
  join("J3", red_and_l, 2, "AC");
  join("J3", l_and_red, 2, "CA");
  erase("J4", "C", 2);
  join("J4", red_and_l, 2, "A");
  test("J4", HUE, "C", 0);
  test("J4", HUE, "B", 1);
  compact("J5", 3, 3 * 4294967296 + 3);
  erase("J5", "B", 1);
  join("J5", l_and_red, 2, "A");
  insert("J6", HUE, 0, "EFGHI", -21);
  insert("J6", HUE, 0, "EFGH", 7);
  expect("its refusal", mazhkuri_refusal(-21), MAZHKURI_LABEL_ROWS);
  uint8_t *parts = parts_of(many, 9);
  join_refused("no part", parts, 0, -6);
  join_refused("less than a part", parts, 127, -6);
  join_refused("more than a part", parts, 129, -6);
  join_refused("more than 8 parts", parts, 1025, -6);
  join_refused("9 parts", parts, 1152, -6);
  /* three anchors and a counter: a byte of each makes whichever is read a damaged one */
  for (size_t i = 0; i < 4; i++) store[HEADER + 110 * 8 + 61 * i + 45] ^= 1;
  join_refused("damage", parts, 256, -13);
  store[store_length - 61] = 2;
  join_refused("a mark in R", parts, 128, -11);
  free(parts);
  free(store);
}

/* A row of a table of six, in form: the last used one comes again, goes, or has another last byte. */
static uint8_t *last_row(int table, size_t *width) {
  static const size_t widths[5] = {61, 49, 61, 45, 61};
  uint8_t *at = store + HEADER;
  for (int t = 0; t < table; t++) at += 6 * widths[t];
  *width = widths[table];
  while (at[*width] == 1) at += *width;
  return at;
}

static void again(int table) {
  size_t w;
  uint8_t *row = last_row(table, &w);
  memcpy(row + w, row, w);
}

static void gone(int table) {
  size_t w;
  uint8_t *row = last_row(table, &w);
  memset(row, 0, w);
}

static void changed(int table, size_t byte) {
  size_t w;
  uint8_t *row = last_row(table, &w);
  row[byte]++; /* no byte changed here is 255, and its row stays the last */
  expect("a byte that grew", row[byte] != 0, 1);
}

/* Stores with each kind of fault, and one in which an insert was repeated at an address in use
 * [check:1 check:2 check:3 check:4 check:5 check:6 check:7 check:8]. */
static void seen(void) {
  enum { M, V, C, S, R };
  make(1, 6, 6, 6, 6);
  check("a fresh store", "0000000", 0);
  insert("one id", HUE, 0, "A", 1);
  uint8_t *older = block(store, 0, store_length);
  insert("another", HUE, 0, "B", 2);
  check("two entries", "0000000", 0);
  uint8_t *kept = block(store, 0, store_length);
  static const struct {
    const char *what, *numbers;
    int again, gone, changed;
    size_t byte;
  } made[] = {{"a row of M twice", "1000000", M, -1, -1, 0},      {"a row of C twice", "0100000", C, -1, -1, 0},
              {"a row of V twice", "0000000", V, -1, -1, 0},      {"a row of S twice", "0000000", S, -1, -1, 0},
              {"a row of R twice", "0000001", R, -1, -1, 0},      {"a row of M gone", "0010000", -1, M, -1, 0},
              {"a row of V gone", "0001011", -1, V, -1, 0},       {"a row of C gone", "0000000", -1, C, -1, 0},
              {"a row of R gone", "0000100", -1, R, -1, 0},       {"another tag in V", "0011000", -1, -1, V, 48},
              {"another id in R", "0000110", -1, -1, R, 16},      {"another id in V", "0000110", -1, -1, V, 16},
              {"another rest in M", "0000000", -1, -1, M, 60},    {"one twice and one gone", "1000100", M, R, -1, 0}};
  for (size_t i = 0; i < sizeof made / sizeof made[0]; i++) {
    memcpy(store, kept, store_length);
    if (made[i].again >= 0) again(made[i].again);
    if (made[i].gone >= 0) gone(made[i].gone);
    if (made[i].changed >= 0) changed(made[i].changed, made[i].byte);
    check(made[i].what, made[i].numbers, 0);
  }
  memcpy(store, kept, store_length);
  /* C and S of the older store: the next insert goes to the address of B */
  memcpy(store + HEADER + 6 * 110, older + HEADER + 6 * 110, 6 * (61 + 45));
  check("tables of two days", "0000000", 0);
  insert("at an address in use", HUE, 0, "C", 2);
  check("two entries at one address", "1000000", 0);
  store[HEADER + 61] = 2;
  check("a mark", "", -11);
  store[0] = 1;
  check("version 1", "", -10);
  free(older), free(kept), free(store);
}

int main(void) {
  key = block("0123456789abcdef0123456789abcdef", 0, 32);
  make(1, 4, 4, 4, 4);
  expect("store length", (int64_t)store_length, 1118);
  insert("G1", HUE, 0, "AB", 2);
  insert("G1", HUE, 1, "C", 1);
  find("G1", HUE, "ABC");
  count("G1", HUE, 3);
  erase("G2", "B", 1);
  find("G2", HUE, "AC");
  count("G2", HUE, 3);
  compact("too few nonces", 1, -19);
  compact("G3", 2, 2 * 4294967296 + 2);
  find("G3", HUE, "AC");
  insert("G4", HUE, 0, "D", 3);
  find("G4", HUE, "ADC");
  insert("G5", HUE, 0, "EF", -15);
  find("G5", HUE, "ADC");
  erase("G6", "A", 1);
  insert("G6", HUE, 0, "EF", 5);
  find("G6", HUE, "DEFC");
  erase("G7", "C", 1);
  insert("G7", SIZE, 0, "G", -16);
  find("G7", HUE, "DEF");
  compact("G8", 2, 1 * 4294967296 + 2);
  insert("G8", SIZE, 0, "G", 1);
  find("G8", HUE, "DEF");
  find("G8", SIZE, "G");
  count("G8", HUE, 6);
  count("G8", SIZE, 1);
  check("G8", "0000000", 0);
  int64_t damage = -(13 + 256 * (3 * 4294967296 + 5));
  expect("13's anchors", mazhkuri_anchors(damage), 3);
  expect("13's counters", mazhkuri_counters(damage), 5);
  expect("anchors", mazhkuri_anchors(2 * 4294967296 + 7), 2);
  expect("counters", mazhkuri_counters(2 * 4294967296 + 7), 7);
  empty();
  free(store);
  repeated();
  rows();
  tallied();
  jointly();
  seen();
  free(key);
  expect("counts made", counts >= 40 && refused_counts >= 24, 1);
  expect("tests and joint finds made", tests_made >= 6 && joint_finds >= 14, 1);
  expect("checks made", checks >= 40 && refused_checks >= 20, 1);
  if (!failed)
    printf("G1 to G8, ids with several entries, rows in byte order, %d counts, %d of them refused, %d tests, %d joint finds and %d checks, "
           "%d of them refused, over the archive: as the papers say\n", counts, refused_counts, tests_made, joint_finds, checks, refused_checks);
  return failed;
}
