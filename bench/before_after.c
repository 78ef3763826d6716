/* How the time of hash, F and each operation has changed: two archives, linked as shared objects and loaded apart from
 * one another, are measured in turn, many rounds, and the best round of each counts. Each works on a store of its own
 * version, in form; both fill theirs by the same calls. Each round checks that the answers agree, the digests, and a find's
 * ids; the whole stores too, where both archives have the same version; after each measurement of a count, that the count
 * which tells its rows answers the same. What one of the archives does not have is left out.
 *   before_after BEFORE.so AFTER.so [ROUNDS]
 * The script bench/before_after builds both.
 */
#define _GNU_SOURCE
#include <dlfcn.h>
#include <stdint.h>
#include <stdio.h>
#include <stdlib.h>
#include <string.h>

#include "measure.h"

enum { LARGEST = 10 + 277 * 4096, TOKEN = 173 };

typedef struct {
  int version; /* 1 has no table R: its token, its nonces and its stores are shorter */
  size_t size, token;
  uint8_t base[LARGEST]; /* the store that it filled */
  union {
    int64_t (*make1)(uint64_t, uint64_t, uint64_t, uint64_t, uint8_t *, size_t);
    int64_t (*make)(uint64_t, uint64_t, uint64_t, uint64_t, uint64_t, uint8_t *, size_t);
  };
  int64_t (*sha256)(const uint8_t *, size_t, uint8_t *);
  int64_t (*hmac)(const uint8_t *, size_t, const uint8_t *, size_t, uint8_t *);
  int64_t (*insert_token)(const uint8_t *, size_t, const uint8_t *, size_t, const uint8_t *, size_t, uint64_t, uint64_t,
                          const uint8_t *, size_t, uint8_t *);
  int64_t (*find_token)(const uint8_t *, size_t, const uint8_t *, size_t, const uint8_t *, size_t, uint8_t *);
  int64_t (*count_token)(const uint8_t *, size_t, const uint8_t *, size_t, const uint8_t *, size_t, uint8_t *);
  int64_t (*compaction_token)(const uint8_t *, size_t, uint8_t *);
  int64_t (*insert)(uint8_t *, size_t, const uint8_t *, size_t, const uint8_t *, size_t, const uint8_t *, size_t);
  int64_t (*erase)(uint8_t *, size_t, const uint8_t *, size_t);
  int64_t (*find)(const uint8_t *, size_t, const uint8_t *, size_t, uint8_t *, size_t);
  int64_t (*count)(const uint8_t *, size_t, const uint8_t *, size_t);
  int64_t (*count_tallied)(const uint8_t *, size_t, const uint8_t *, size_t, uint64_t *); /* NULL where there is none */
  int64_t (*compact)(uint8_t *, size_t, const uint8_t *, size_t, const uint8_t *, size_t);
  int64_t (*test)(const uint8_t *, size_t, const uint8_t *, size_t, const uint8_t *, size_t); /* and these three */
  int64_t (*joint_find)(const uint8_t *, size_t, const uint8_t *, size_t, uint8_t *, size_t);
  int64_t (*part_token)(const uint8_t *, size_t, const uint8_t *, size_t, const uint8_t *, size_t, uint8_t *);
} Library;

static Library before, after;
/* Both work in one place, since where a store lies changes the time of a small call; and what each left. */
static uint8_t work[LARGEST], out[65536], left[2][LARGEST + 65536], nonces[12 * 4096], text[65536];
static int rounds = 40;
static const uint8_t key[32] = {1, 2, 3, 4, 5, 6, 7, 8, 9}, empty[1];

static void *named(void *from, const char *name, int wanted) {
  void *found = dlsym(from, name);
  if (!found && wanted) {
    printf("there is no %s\n", name);
    exit(1);
  }
  return found;
}

static void load(Library *l, const char *path) {
  void *from = dlmopen(LM_ID_NEWLM, path, RTLD_NOW | RTLD_LOCAL);
  if (!from) {
    printf("%s\n", dlerror());
    exit(1);
  }
  *(void **)&l->make = named(from, "mazhkuri_make", 1);
  *(void **)&l->sha256 = named(from, "mazhkuri_sha256", 1);
  *(void **)&l->hmac = named(from, "mazhkuri_hmac", 1);
  *(void **)&l->insert_token = named(from, "mazhkuri_insert_token", 1);
  *(void **)&l->find_token = named(from, "mazhkuri_find_token", 1);
  *(void **)&l->count_token = named(from, "mazhkuri_count_token", 1);
  *(void **)&l->compaction_token = named(from, "mazhkuri_compaction_token", 1);
  *(void **)&l->insert = named(from, "mazhkuri_insert", 1);
  *(void **)&l->erase = named(from, "mazhkuri_erase", 1);
  *(void **)&l->find = named(from, "mazhkuri_find", 1);
  *(void **)&l->count = named(from, "mazhkuri_count", 1);
  *(void **)&l->count_tallied = named(from, "mazhkuri_count_tallied", 0);
  *(void **)&l->compact = named(from, "mazhkuri_compact", 1);
  *(void **)&l->test = named(from, "mazhkuri_test", 0);
  *(void **)&l->joint_find = named(from, "mazhkuri_joint_find", 0);
  *(void **)&l->part_token = named(from, "mazhkuri_part_token", 0);
  l->version = l->joint_find ? 2 : 1;
  l->token = l->version == 1 ? 141 : TOKEN;
}

static size_t nonce_bytes(const Library *l, size_t j) { return l->version == 1 ? 12 * (j + 1) : 12 * (2 * j + 1); }

static void check(int ok, const char *what) {
  if (!ok) {
    printf("%s: the two archives differ\n", what);
    exit(1);
  }
}

static void field(uint8_t name[3], unsigned f) { name[0] = 'f', name[1] = (uint8_t)(f >> 8), name[2] = (uint8_t)f; }

/* The token of version 1 is the start of that of version 2. */
static void insert_token(unsigned f, unsigned p, uint8_t token[TOKEN]) {
  uint8_t name[3], nonce[12];
  field(name, f);
  fill(nonce, 12);
  check(after.insert_token(key, 32, name, 3, empty, 0, p, 0, nonce, 12, token) == (int64_t)after.token, "insert token");
}

/* Ids under a field, into both stores. */
static void add_ids(unsigned f, size_t j, const uint8_t *ids) {
  uint8_t token[TOKEN];
  insert_token(f, 0, token);
  fill(nonces, 12 * (2 * j + 1));
  for (Library *l = &before; l; l = l == &before ? &after : NULL)
    check(l->insert(l->base, l->size, ids, 16 * j, nonces, nonce_bytes(l, j), token, l->token) > 0, "set up");
}

/* New ids under a field, or all of them one id. */
static void add(unsigned f, size_t j, const uint8_t *id) {
  uint8_t ids[1024];
  fill(ids, 16 * j);
  for (size_t i = 0; id && i < j; i++) memcpy(ids + 16 * i, id, 16);
  add_ids(f, j, ids);
}

/* A store with m rows in M, V and R, and 4,096 in the other tables. */
static void make(Library *l, size_t m) {
  l->size = l->version == 1 ? 8 + 110 * m + 106 * 4096 : 10 + 171 * m + 106 * 4096;
  if (l->version == 1)
    check(l->make1(0, m, 4096, 4096, l->base, l->size) == 0, "make");
  else
    check(l->make(0, m, 4096, 4096, m, l->base, l->size) == 0, "make");
}

static void fresh(void) { make(&before, 4096), make(&after, 4096); }

static void entries(unsigned f, size_t n, const uint8_t *id) {
  uint8_t token[32];
  for (; n > 64; n -= 64) add(f, 64, id);
  if (n) add(f, n, id);
  after.compaction_token(key, 32, token);
  fill(nonces, sizeof nonces);
  check(after.compact(after.base, after.size, nonces, sizeof nonces, token, 32) >= 0, "set up");
  check(before.compact(before.base, before.size, nonces, sizeof nonces, token, 32) >= 0, "set up");
}

/* The id in row 2,000 of V. */
static void some_id(uint8_t id[16]) { memcpy(id, after.base + (after.version == 1 ? 8 : 10) + 61 * 4096 + 49 * 2000 + 1, 16); }

/* A call with all that it takes. */
typedef struct {
  enum { INSERT, ERASE, FIND, COUNT, COMPACT, TEST, JOINT_FIND } kind;
  uint8_t token[8 * 128], ids[1024];
  size_t j; /* ids of an insert, parts of a joint find */
} Call;

static int64_t perform(const Library *l, const Call *c, uint8_t *store, uint8_t *output) {
  size_t size = l->size;
  switch (c->kind) {
    case INSERT:
      return l->insert(store, size, c->ids, 16 * c->j, nonces, nonce_bytes(l, c->j), c->token, l->token);
    case ERASE:
      return l->erase(store, size, c->ids, 16);
    case FIND:
      return l->find(store, size, c->token, 96, output, sizeof out);
    case COUNT:
      return l->count(store, size, c->token, 32);
    case TEST:
      return l->test(store, size, c->ids, 16, c->token, 32);
    case JOINT_FIND:
      return l->joint_find(store, size, c->token, 128 * c->j, output, sizeof out);
    default:
      return l->compact(store, size, nonces, sizeof nonces, c->token, 32);
  }
}

/* Where the archive has it. */
static void check_tallied(const Library *l, const Call *c, int64_t wanted) {
  uint64_t rows = 0;
  if (l->count_tallied) check(l->count_tallied(l->base, l->size, c->token, 32, &rows) == wanted && rows > 0, "count with rows");
}

static void line(const char *name, const double took[2], int digits) {
  printf("%-44s %9.*f us %9.*f us   %6.2f times faster\n", name, digits, took[0], digits, took[1], took[0] / took[1]);
  fflush(stdout);
}

/* The best time of each. */
static void compare(const char *name, const Call *c, int times, int64_t wanted, double best[2]) {
  const Library *by[2] = {&before, &after};
  best[0] = best[1] = 1e18;
  int alike = before.version == after.version;
  if (alike) check(memcmp(before.base, after.base, after.size) == 0, "set up");
  for (int r = 0; r < times; r++) {
    for (int i = 0; i < 2; i++) {
      int k = (i + r) % 2; /* each is first in turn */
      memcpy(work, by[k]->base, by[k]->size);
      memset(out, 0, sizeof out);
      double began = now();
      int64_t told = perform(by[k], c, work, out);
      double took = now() - began;
      if (took < best[k]) best[k] = took;
      check(told == wanted, name);
      memcpy(left[k], out, sizeof out);
      memcpy(left[k] + sizeof out, work, by[k]->size);
    }
    check(memcmp(left[0], left[1], sizeof out + (alike ? after.size : 0)) == 0, name);
  }
  if (c->kind == COUNT) check_tallied(&before, c, wanted), check_tallied(&after, c, wanted);
}

static void measure(const char *name, const Call *c, int times, int64_t wanted) {
  double best[2];
  compare(name, c, times, wanted, best);
  line(name, best, 1);
}

/* The hash of n bytes, or F of them in one shot: so many calls in a round. */
static void hashes(const char *name, int keyed, size_t n, int calls) {
  const Library *by[2] = {&before, &after};
  double best[2] = {1e18, 1e18};
  uint8_t digest[32], given[2][32];
  for (int r = 0; r < 10 * rounds; r++) {
    fill(text, n);
    for (int i = 0; i < 2; i++) {
      int k = (i + r) % 2;
      int64_t told = 0;
      double began = now();
      for (int j = 0; j < calls; j++)
        told |= keyed ? by[k]->hmac(key, 32, text, n, digest) : by[k]->sha256(text, n, digest);
      double took = (now() - began) / calls;
      if (took < best[k]) best[k] = took;
      check(told == 0, name);
      memcpy(given[k], digest, 32);
    }
    check(memcmp(given[0], given[1], 32) == 0, name);
  }
  line(name, best, 3);
}

/* F with a prepared key: a find over 1,000 addresses in a table M of one row, less the count, which does the same reading. */
static void prepared(void) {
  Call find = {.kind = FIND}, count = {.kind = COUNT};
  double found[2], counted[2], each[2];
  uint8_t id[16], name[3];
  make(&before, 1), make(&after, 1);
  for (int i = 0; i < 1000; i++) {
    fill(id, 16);
    add_ids(1, 1, id);
    check(before.erase(before.base, before.size, id, 16) == 1 && after.erase(after.base, after.size, id, 16) == 1, "set up");
  }
  entries(1, 0, NULL);
  field(name, 1);
  after.find_token(key, 32, name, 3, empty, 0, find.token);
  after.count_token(key, 32, name, 3, empty, 0, count.token);
  compare("find", &find, rounds, 0, found);
  compare("count", &count, rounds, 1000, counted);
  for (int k = 0; k < 2; k++) each[k] = (found[k] - counted[k]) / 1000;
  line("F, prepared key", each, 3);
}

static void inserts(const char *name, size_t j, int64_t wanted, unsigned p) {
  Call c = {.kind = INSERT, .j = j};
  insert_token(7, p, c.token);
  fill(c.ids, 16 * j);
  fill(nonces, 12 * (2 * j + 1));
  measure(name, &c, rounds, wanted);
}

/* A count or a find of a field. */
static void reads(const char *name, int kind, unsigned f, int64_t wanted) {
  Call c = {.kind = kind};
  uint8_t text[3];
  field(text, f);
  (kind == COUNT ? after.count_token : after.find_token)(key, 32, text, 3, empty, 0, c.token);
  measure(name, &c, kind == FIND && wanted > 100 ? rounds / 8 + 2 : rounds, wanted);
}

static void erases(const char *name, const uint8_t *id, int64_t wanted) {
  Call c = {.kind = ERASE};
  memcpy(c.ids, id, 16);
  measure(name, &c, rounds, wanted);
}

static void compacts(const char *name, int64_t labels, int64_t rows) {
  Call c = {.kind = COMPACT};
  after.compaction_token(key, 32, c.token);
  fill(nonces, sizeof nonces);
  measure(name, &c, rounds / 10 + 2, labels * 4294967296 + rows);
}

/* Where both archives have them: a joint find of parts with 10 ids in the first and 1,000 in each other, and a test. */
static void joint_finds(void) {
  static const unsigned fields[8] = {1, 2, 3, 4, 5, 2, 3, 4};
  Call c = {.kind = JOINT_FIND};
  uint8_t ten[160], text[3];
  char name[64];
  if (!before.joint_find || !after.joint_find) return;
  fresh();
  fill(ten, sizeof ten);
  for (unsigned f = 1; f < 6; f++) {
    add_ids(f, 10, ten);
    if (f > 1) entries(f, 990, NULL);
  }
  for (c.j = 1; c.j <= 8; c.j *= 2) {
    for (size_t i = 0; i < c.j; i++) field(text, fields[i]), after.part_token(key, 32, text, 3, empty, 0, c.token + 128 * i);
    snprintf(name, sizeof name, "joint find of %zu, 10 ids", c.j);
    measure(name, &c, rounds, 10);
  }
  Call test = {.kind = TEST};
  memcpy(test.ids, ten, 16);
  memcpy(test.token, c.token + 96, 32);
  measure("test", &test, rounds, 1);
}

int main(int count, char **arguments) {
  uint8_t id[16];
  char name[64];
  if (count < 3) {
    printf("before_after BEFORE.so AFTER.so [ROUNDS]\n");
    return 2;
  }
  load(&before, arguments[1]);
  load(&after, arguments[2]);
  if (count > 3) rounds = atoi(arguments[3]);
  printf("before (version %d), after (version %d)\n", before.version, after.version);
  hashes("SHA-256 of 64 KiB", 0, 65536, 1);
  hashes("SHA-256 of 1 KiB", 0, 1024, 50);
  hashes("SHA-256 of 32 bytes", 0, 32, 500);
  hashes("F of 8 bytes, in one shot", 1, 8, 200);
  prepared();
  printf("m = c = s = r = 4,096, p = 0\n");
  static const size_t full[3] = {0, 2048, 3891};
  static const char *how[3] = {"empty", "half full", "95 % full"};
  for (int i = 0; i < 3; i++) {
    fresh();
    entries(1, full[i], NULL);
    for (int j = 1; j <= 64; j += 63) {
      snprintf(name, sizeof name, "insert of %d, %s", j, how[i]);
      inserts(name, (size_t)j, j, 0);
    }
  }
  fresh();
  for (unsigned i = 0; i < 4096; i++) add(i % 64, 1, NULL);
  inserts("the checks of a full store alone (12)", 1, -12, 1);
  for (unsigned n = 1; n <= 1000; n *= n == 1 ? 100 : 10) {
    fresh();
    for (unsigned i = 0; i < n; i++) add(1, 1, NULL);
    snprintf(name, sizeof name, "count after %u uncompacted inserts", n);
    reads(name, COUNT, 1, n);
  }
  static const unsigned ids[3] = {10, 1000, 4000};
  for (int i = 0; i < 3; i++) {
    fresh();
    entries(1, ids[i], NULL);
    snprintf(name, sizeof name, "find of %u ids", ids[i]);
    reads(name, FIND, 1, ids[i]);
  }
  fresh();
  entries(1, 3000, NULL);
  entries(2, 1000, NULL);
  reads("find of 1000 ids in a store of 4,000", FIND, 2, 1000);
  fresh();
  entries(1, 3990, NULL);
  entries(2, 10, NULL);
  reads("find of 10 ids in a store of 4,000", FIND, 2, 10);
  some_id(id);
  erases("erase of one entry of 4,000", id, 1);
  fresh();
  fill(id, 16);
  entries(1, 1000, id);
  entries(1, 3000, NULL);
  erases("erase of an id held 1,000 times, of 4,000", id, 1000);
  static const unsigned rows[4] = {1000, 4000, 1000, 4000}, labels[4] = {4, 4, 1000, 4000};
  for (int i = 0; i < 4; i++) {
    fresh();
    for (unsigned j = 0; j < rows[i]; j++) add(j % labels[i], 1, NULL);
    snprintf(name, sizeof name, "compaction of %u rows, %u labels", rows[i], labels[i]);
    compacts(name, labels[i], rows[i]);
  }
  joint_finds();
  return 0;
}
