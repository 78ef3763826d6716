/* Mazhkuri: a stateless encrypted multi-map, proved. The C interface of the static library.
 *
 * A client holds one key of 32 bytes, remembers nothing, and makes tokens. A server holds a store
 * and no key: it inserts, erases, finds, finds by several fields, tests, counts, compacts, orders and
 * checks.
 * docs/API.md tells each call at length, docs/FORMAT.md the bytes of stores and tokens.
 *
 * What a call returns
 *   0 or more   the call was done, and this is its answer; 0 where a call has none.
 *   below 0     the call was refused: minus (the refusal's number + 256 * what it carries).
 *               mazhkuri_refusal and mazhkuri_carried take the two apart. Only refusal 18 carries a
 *               number, and refusal 13 of a compaction, which carries its two numbers so far.
 * Different answers of a call are different numbers (proved): nothing of an answer is lost. A check
 * returns the sum of its numbers, and writes the numbers themselves.
 * A refused call changes no byte of what it was lent, with one exception: see mazhkuri_compact.
 *
 * Memory
 *   Every byte belongs to the caller, before, during and after a call. A call allocates nothing,
 *   frees nothing, and keeps no pointer and no state: whatever it knows stands in its arguments.
 *   A pointer with a length is read, or written, from its first byte to its length and no further.
 *   A pointer to const is never written. digest, tag and token of the functions that write them have
 *   exactly the size given in brackets, and the caller provides that many bytes.
 *   A length may be 0, and then the pointer may be any non-null pointer; it is not read through. NULL
 *   must not be passed, not even with length 0. No alignment is asked for. A length is at most
 *   PTRDIFF_MAX.
 *   What a call writes (digest, tag, text, token, store, output, rows, numbers) must not overlap any
 *   other argument.
 *   Arguments that a call only reads may overlap one another.
 *   What a call writes has to hold some value before the call (a refused call leaves it).
 *
 * Threads
 *   Calls that share no written memory may run at the same time. A store that one call writes must
 *   not be lent to another call at that time.
 *
 * The refusals, each call's in the order in which it tests them: 1 to 9 by number, then 10, 11, 20,
 * 12, 19, 13, 14, 15, 16, 17, 21, 18.
 */
#ifndef MAZHKURI_H
#define MAZHKURI_H

#include <stddef.h>
#include <stdint.h>

#ifdef __cplusplus
extern "C" {
#endif

enum {
  MAZHKURI_KEY_LENGTH = 1,     /* the key is not 32 bytes */
  MAZHKURI_FIELD_LENGTH = 2,   /* the name is not 1 to 255 bytes, or the value above 1,024 */
  MAZHKURI_SHARE_RANGE = 3,    /* p is above 15, or u above p */
  MAZHKURI_NONCE_LENGTH = 4,   /* the nonce bytes are not as many as the call asks for */
  MAZHKURI_ID_LENGTH = 5,      /* the id bytes are not as many as the call asks for */
  MAZHKURI_TOKEN_LENGTH = 6,   /* the token has another length */
  MAZHKURI_SIZE_RANGE = 7,     /* p is above 15, or m, c, s or r is not 1 to 4,096 */
  MAZHKURI_SLICE_LENGTH = 8,   /* the store's length is not 10 + 110 m + 61 c + 45 s + 61 r */
  MAZHKURI_TEXT_LENGTH = 9,    /* a message, a text or an HMAC key is above 65,536 bytes */
  MAZHKURI_HEADER = 10,        /* the bytes are no store of this version: header or length */
  MAZHKURI_MARK = 11,          /* a row's mark is neither 0 nor 1 */
  MAZHKURI_TOKEN_SHARES = 12,  /* the insert token's p is not the store's */
  MAZHKURI_DAMAGE = 13,        /* a counter that was read is damaged */
  MAZHKURI_COUNT_RANGE = 14,   /* the new count would be above 4,294,967,295 */
  MAZHKURI_ENTRY_ROWS = 15,    /* fewer free entry rows than ids */
  MAZHKURI_COUNTER_ROWS = 16,  /* no free counter row: compact, or make a larger store */
  MAZHKURI_LOG_ROWS = 17,      /* no free log row: compact */
  MAZHKURI_OUTPUT_LENGTH = 18, /* the output is too short for the different ids; carries how many */
  MAZHKURI_NONCE_COUNT = 19,   /* a compaction has fewer nonces than used log rows */
  MAZHKURI_ROW_ORDER = 20,     /* rows are not in byte order: mazhkuri_order puts the store in form */
  MAZHKURI_LABEL_ROWS = 21     /* fewer free label rows than ids */
};

enum {
  MAZHKURI_KEY = 32,
  MAZHKURI_ID = 16,
  MAZHKURI_NONCE = 12,
  MAZHKURI_DIGEST = 32,
  MAZHKURI_INSERT_TOKEN = 173,
  MAZHKURI_FIND_TOKEN = 96,
  MAZHKURI_COUNT_TOKEN = 32,
  MAZHKURI_COMPACTION_TOKEN = 32,
  MAZHKURI_MARK_TOKEN = 32,
  MAZHKURI_PART_TOKEN = 128
};

/* What a check counts, each at its place of numbers, and what it means for later calls. A reverse row leads
 * from an id back to its entry; an erase goes by them. */
enum {
  /* entry rows at the address of one before them: a find gives the id of the first alone */
  MAZHKURI_REPEATED_ENTRIES = 0,
  /* counter rows at the position of one before them: a count may be too low, and inserts repeat addresses */
  MAZHKURI_REPEATED_COUNTERS = 1,
  /* reverse rows of no entry: an erase of their id counts them, and finds lack that entry */
  MAZHKURI_REVERSES_WITHOUT_ENTRY = 2,
  /* entry rows without a reverse row: no erase frees them, and finds go on to give their id */
  MAZHKURI_ENTRIES_WITHOUT_REVERSE = 3,
  /* reverse rows whose id has no label row: tests of it say no, and joint finds leave it out */
  MAZHKURI_REVERSES_WITHOUT_LABEL = 4,
  /* label rows whose id has no reverse row: tests may say yes of an id that was erased or never inserted */
  MAZHKURI_LABELS_WITHOUT_REVERSE = 5,
  /* label rows beyond the number of reverse rows: they take room, and 21 comes too soon */
  MAZHKURI_LABELS_IN_EXCESS = 6,
  MAZHKURI_NUMBERS = 7
};

/* The bytes of a store with m entry rows, c counter rows, s log rows and r label rows, each 1 to 4,096. */
#define MAZHKURI_STORE(m, c, s, r) \
  (10 + 110 * (size_t)(m) + 61 * (size_t)(c) + 45 * (size_t)(s) + 61 * (size_t)(r))

/* The nonce bytes of an insert of so many ids: 12 for each id, 12, and 12 for each id again. */
#define MAZHKURI_INSERT_NONCES(ids) (12 * (2 * (size_t)(ids) + 1))

/* The refusal's number of what a call returned, 0 where it was done; and what it carries. */
static inline int mazhkuri_refusal(int64_t told) { return told < 0 ? (int)(-told % 256) : 0; }
static inline int64_t mazhkuri_carried(int64_t told) { return told < 0 ? -told / 256 : 0; }

/* The two numbers of what a compaction returned, done or refused by 13: anchors written and counters
 * freed. */
static inline int64_t mazhkuri_anchors(int64_t told) {
  return (told < 0 ? -told / 256 : told) / 4294967296;
}
static inline int64_t mazhkuri_counters(int64_t told) {
  return (told < 0 ? -told / 256 : told) % 4294967296;
}

/* SHA-256 of the message. Returns 0; or -9. */
int64_t mazhkuri_sha256(const uint8_t *message, size_t message_length, uint8_t digest[32]);

/* HMAC-SHA-256 of the message under a key of any length. Returns 0; or -9. */
int64_t mazhkuri_hmac(const uint8_t *key, size_t key_length, const uint8_t *message,
                      size_t message_length, uint8_t tag[32]);

/* ChaCha20 over the text in its place, first block counter 1; the same call undoes it.
 * Returns 0; or -1, -4 (the nonce is not 12 bytes), -9. */
int64_t mazhkuri_chacha20(const uint8_t *key, size_t key_length, const uint8_t *nonce,
                          size_t nonce_length, uint8_t *text, size_t text_length);

/* The six token makings: what the client does with its key. Each returns the token's length and
 * writes all of the token, or is refused and leaves the token's bytes as they were.
 *
 * Insert: for a field (name, value) in share u of a store with shares 0 to p, under a nonce of 12
 * bytes. Returns 173; or -1, -2, -3, -4. */
int64_t mazhkuri_insert_token(const uint8_t *key, size_t key_length, const uint8_t *name,
                              size_t name_length, const uint8_t *value, size_t value_length,
                              uint64_t p, uint64_t u, const uint8_t *nonce, size_t nonce_length,
                              uint8_t token[173]);

/* Find. Returns 96; or -1, -2. */
int64_t mazhkuri_find_token(const uint8_t *key, size_t key_length, const uint8_t *name,
                            size_t name_length, const uint8_t *value, size_t value_length,
                            uint8_t token[96]);

/* Count. Returns 32; or -1, -2. */
int64_t mazhkuri_count_token(const uint8_t *key, size_t key_length, const uint8_t *name,
                             size_t name_length, const uint8_t *value, size_t value_length,
                             uint8_t token[32]);

/* Compaction. Returns 32; or -1. */
int64_t mazhkuri_compaction_token(const uint8_t *key, size_t key_length, uint8_t token[32]);

/* Test. Returns 32; or -1, -2. */
int64_t mazhkuri_mark_token(const uint8_t *key, size_t key_length, const uint8_t *name,
                            size_t name_length, const uint8_t *value, size_t value_length,
                            uint8_t token[32]);

/* A part of a joint find: the find token, then the mark token. Returns 128; or -1, -2. */
int64_t mazhkuri_part_token(const uint8_t *key, size_t key_length, const uint8_t *name,
                            size_t name_length, const uint8_t *value, size_t value_length,
                            uint8_t token[128]);

/* Makes an empty store with shares 0 to p and m entry, c counter, s log and r label rows;
 * store_length is exactly MAZHKURI_STORE(m, c, s, r). Returns 0; or -7, -8. */
int64_t mazhkuri_make(uint64_t p, uint64_t m, uint64_t c, uint64_t s, uint64_t r, uint8_t *store,
                      size_t store_length);

/* Inserts 1 to 64 ids of 16 bytes each, one after the other, with MAZHKURI_INSERT_NONCES(ids) nonce
 * bytes. An id may be inserted again: it gets another entry, and a find gives it once.
 * Returns how many ids were ever inserted under the token's field and share, the new ones and repeats
 * included, 1 to 4,294,967,295; or -4, -5, -6, -10, -11, -20, -12, -13, -14, -15, -16, -17, -21. */
int64_t mazhkuri_insert(uint8_t *store, size_t store_length, const uint8_t *ids, size_t ids_length,
                        const uint8_t *nonces, size_t nonces_length, const uint8_t *token,
                        size_t token_length);

/* Erases the id of 16 bytes from every field and share. Returns how many entries were freed, each
 * repeat counted, 0 to 4,096; or -5, -10, -11, -20. */
int64_t mazhkuri_erase(uint8_t *store, size_t store_length, const uint8_t *id, size_t id_length);

/* Finds the ids under the token's field, in all shares, and writes them to the start of the output,
 * each once, at the first place where it would have come; bytes after them stay. Returns how many;
 * or -6, -10, -11, -20, -13, or -(18 + 256 * how many) where the output is shorter than 16 times
 * that. The output may be empty. The time grows with how many ids were ever inserted under the field.
 * It needs some 350 KiB of stack. */
int64_t mazhkuri_find(const uint8_t *store, size_t store_length, const uint8_t *token,
                      size_t token_length, uint8_t *output, size_t output_length);

/* Tests whether the document of the id has the mark token's field: whether the id was inserted under it,
 * in whatever share, and not erased since. Returns 1 for yes, 0 for no; or -5, -6, -10, -11, -20. */
int64_t mazhkuri_test(const uint8_t *store, size_t store_length, const uint8_t *id, size_t id_length,
                      const uint8_t *mark_token, size_t mark_token_length);

/* Finds the ids that are under the fields of all parts: 1 to 8 part tokens, one after the other. They are
 * those of the part under which the fewest ids were ever inserted, erased ones and repeats included, the
 * earlier part on a tie, in the order of its find, for which every other part tests yes. They go to the
 * start of the output, and bytes after them stay. Returns how many; or -6 (not 1 to 8 parts), -10, -11,
 * -20, -13 (a counter of any part is damaged), or -(18 + 256 * how many) where the output is shorter
 * than 16 times that. The time grows with how many ids were ever inserted under that part's field. It
 * needs some 420 KiB of stack. */
int64_t mazhkuri_joint_find(const uint8_t *store, size_t store_length, const uint8_t *parts,
                            size_t parts_length, uint8_t *output, size_t output_length);

/* Counts the ids ever inserted under the token's field, erased ones and repeats included, in all
 * shares. Returns 0 to 68,719,476,720; or -6, -10, -11, -20, -13. */
int64_t mazhkuri_count(const uint8_t *store, size_t store_length, const uint8_t *token,
                       size_t token_length);

/* The same, and writes to rows[0] how many counter rows were looked at for it: at most 2 * c *
 * (p + 1) * the used counter rows. A refusal leaves rows[0]. */
int64_t mazhkuri_count_tallied(const uint8_t *store, size_t store_length, const uint8_t *token,
                               size_t token_length, uint64_t rows[1]);

/* Compacts: for every field and share inserted under since the last compaction, frees its counter
 * rows and writes one anchor row in their place; then frees the log rows. At least as many nonces of
 * 12 bytes as the log has used rows. Returns anchors written * 2^32 + counters freed; or -4, -6,
 * -10, -11, -20, -19, or -(13 + 256 * (anchors * 2^32 + counters)): a counter is damaged, and what was
 * compacted before it stays compacted, as both numbers tell. This is the one refusal after which
 * bytes of the store have changed. mazhkuri_anchors and mazhkuri_counters take the numbers apart. */
int64_t mazhkuri_compact(uint8_t *store, size_t store_length, const uint8_t *nonces,
                         size_t nonces_length, const uint8_t *token, size_t token_length);

/* Puts a store in form: in each table the used rows first, ascending by their bytes, then free rows
 * that are all zero. Every used row is kept. For stores whose rows stand in another order, which every
 * other call refuses by 20. Returns how many used rows there are in all tables; or -10, -11. */
int64_t mazhkuri_order(uint8_t *store, size_t store_length);

/* Checks a store, without any key: writes the seven numbers of the enum above, in that order. Returns their
 * sum; or -10, -11, -20, and then the numbers stay as they were. The store is never changed. Every list of
 * calls on a store that mazhkuri_make made leaves 0 of each (proved, under the premise of docs/CLAIM.md); another
 * number tells of a restore that went wrong, of damage, or of another program that wrote to the store. */
int64_t mazhkuri_check(const uint8_t *store, size_t store_length, uint64_t numbers[7]);

#ifdef __cplusplus
}
#endif

#endif
