/* How fast the store's operations are, as ratios: the library's archive, and plain C over OpenSSL that
 * does the same on the same bytes (reference.c). Both are measured in turn within one run, many rounds,
 * and the best round of each counts; each round checks that answers and bytes agree. The floor is the
 * number of compressions that no program with this scheme can avoid times OpenSSL's time for one.
 *   operations [ROUNDS]
 */
#define OPENSSL_SUPPRESS_DEPRECATED
#include <openssl/sha.h>
#include <stdio.h>
#include <stdlib.h>
#include <string.h>

#include "mazhkuri.h"
#include "measure.h"
#include "reference.h"

enum { LARGEST = MAZHKURI_STORE(4096, 4096, 4096, 4096), TOKEN = MAZHKURI_INSERT_TOKEN };
static uint8_t base[LARGEST], work[LARGEST], other[LARGEST], out1[65536], out2[65536];
static size_t size;
static int rounds = 40;
static double compression;
static const uint8_t key[32] = {1, 2, 3, 4, 5, 6, 7, 8, 9};
/* The value of every field here is empty; its pointer is still one that can be read. */
static const uint8_t empty[1];

static void check(int ok, const char *what) {
  if (!ok) {
    printf("%s: library and reference differ\n", what);
    exit(1);
  }
}

static size_t field(uint8_t name[4], unsigned f) {
  name[0] = 'f', name[1] = (uint8_t)(f >> 8), name[2] = (uint8_t)f;
  return 3;
}

static void insert_token(unsigned f, unsigned p, unsigned u, uint8_t token[TOKEN]) {
  uint8_t name[4], nonce[12];
  size_t n = field(name, f);
  fill(nonce, 12);
  check(mazhkuri_insert_token(key, 32, name, n, empty, 0, p, u, nonce, 12, token) == TOKEN, "insert token");
}

/* Puts j ids under a field into the base store. */
static void add_ids(unsigned f, unsigned p, unsigned u, const uint8_t *ids, size_t j) {
  uint8_t token[TOKEN], nonces[MAZHKURI_INSERT_NONCES(64)];
  size_t n = MAZHKURI_INSERT_NONCES(j);
  insert_token(f, p, u, token);
  fill(nonces, n);
  check(mazhkuri_insert(base, size, ids, 16 * j, nonces, n, token, TOKEN) > 0, "set up");
}

/* New ids, or some of those given. */
static void add_of(unsigned f, unsigned p, unsigned u, size_t j, const uint8_t *given, size_t n) {
  uint8_t ids[1024];
  fill(ids, 16 * j);
  for (size_t i = 0; n > 0 && i < j; i++) memcpy(ids + 16 * i, given + 16 * (ids[16 * i] % n), 16);
  add_ids(f, p, u, ids, j);
}

static void add(unsigned f, unsigned p, unsigned u, size_t j) { add_of(f, p, u, j, NULL, 0); }

static void fresh(unsigned p, unsigned m) {
  size = MAZHKURI_STORE(m, m, m, m);
  check(mazhkuri_make(p, m, m, m, m, base, size) == 0, "make");
}

/* The id in a row of V of the base store, which has m rows in each table. */
static void id_at(unsigned m, size_t row, uint8_t id[16]) { memcpy(id, base + 10 + 61ul * m + 49 * row + 1, 16); }

static void compact_base(void) {
  uint8_t token[32];
  static uint8_t nonces[12 * 4096];
  mazhkuri_compaction_token(key, 32, token);
  fill(nonces, sizeof nonces);
  check(mazhkuri_compact(base, size, nonces, sizeof nonces, token, 32) >= 0, "set up");
}

/* Entries up to a fill of M, under one field, with C and S emptied again by compactions; of new ids, or of some of
 * those given. */
static void fill_of(unsigned p, unsigned u, size_t n, const uint8_t *given, size_t ids) {
  while (n > 0) {
    size_t j = n < 64 ? n : 64;
    add_of(1, p, u, j, given, ids);
    n -= j;
  }
  compact_base();
}

static void fill_entries(unsigned p, unsigned u, size_t n) { fill_of(p, u, n, NULL, 0); }

static void line(const char *name, double ours, double theirs, double floor) {
  printf("%-48s %10.1f us %10.1f us   ratio %5.2f", name, ours, theirs, ours / theirs);
  if (floor > 0) printf("   floor %9.1f us", floor * compression);
  printf("\n");
  fflush(stdout);
}

#define MEASURE(best, call)            \
  do {                                 \
    double began_ = now();             \
    call;                              \
    double took_ = now() - began_;     \
    if (took_ < best) best = took_;    \
  } while (0)

static void bench_insert(const char *name, size_t j, double floor) {
  uint8_t token[TOKEN], ids[1024], nonces[MAZHKURI_INSERT_NONCES(64)];
  size_t n = MAZHKURI_INSERT_NONCES(j);
  double ours = 1e18, theirs = 1e18;
  int64_t a = 0, b = 0;
  insert_token(7, base[1], 0, token);
  fill(ids, 16 * j);
  fill(nonces, n);
  for (int r = 0; r < rounds; r++) {
    memcpy(work, base, size);
    MEASURE(ours, a = mazhkuri_insert(work, size, ids, 16 * j, nonces, n, token, TOKEN));
    memcpy(other, base, size);
    MEASURE(theirs, b = reference_insert(other, size, ids, 16 * j, nonces, n, token));
    check(a == b && a > 0 && memcmp(work, other, size) == 0, name);
  }
  line(name, ours, theirs, floor);
}

/* The keys of CL; two lookups; MT prepared and a tag for each id; RL prepared and an R mark for each id. */
#define INSERT_FLOOR(j) (8 + 4 + 2 + 2 * (j) + 2 + 2 * (j))

static void bench_count(const char *name, unsigned f, double floor) {
  uint8_t token[32], text[4];
  double ours = 1e18, theirs = 1e18;
  int64_t a = 0, b = 0;
  uint64_t rows = 0, looked = 1;
  size_t n = field(text, f);
  mazhkuri_count_token(key, 32, text, n, empty, 0, token);
  for (int r = 0; r < rounds; r++) {
    MEASURE(ours, a = mazhkuri_count_tallied(base, size, token, 32, &rows));
    MEASURE(theirs, b = reference_count(base, size, token, &looked));
    check(a == b && a >= 0 && rows == looked && rows > 0 && a == mazhkuri_count(base, size, token, 32), name);
  }
  line(name, ours, theirs, floor);
}

static void bench_find(const char *name, unsigned f, int64_t wanted, double floor) {
  uint8_t token[96], text[4];
  double ours = 1e18, theirs = 1e18;
  int64_t a = 0, b = 0;
  size_t n = field(text, f);
  mazhkuri_find_token(key, 32, text, n, empty, 0, token);
  for (int r = 0; r < (wanted > 100 ? rounds / 8 + 2 : rounds); r++) {
    MEASURE(ours, a = mazhkuri_find(base, size, token, 96, out1, sizeof out1));
    MEASURE(theirs, b = reference_find(base, size, token, out2, sizeof out2));
    check(a == b && a == wanted && memcmp(out1, out2, 16 * (size_t)a) == 0, name);
  }
  line(name, ours, theirs, floor);
}

static void bench_erase(const char *name, const uint8_t id[16], int64_t wanted) {
  double ours = 1e18, theirs = 1e18;
  int64_t a = 0, b = 0;
  for (int r = 0; r < rounds; r++) {
    memcpy(work, base, size);
    MEASURE(ours, a = mazhkuri_erase(work, size, id, 16));
    memcpy(other, base, size);
    MEASURE(theirs, b = reference_erase(other, size, id));
    check(a == b && a == wanted && memcmp(work, other, size) == 0, name);
  }
  line(name, ours, theirs, 0);
}

/* The check of header, marks and form alone: an insert with a token of another p is refused by 12, right after it. */
static void bench_form(const char *name) {
  uint8_t token[TOKEN], id[16] = {1}, nonces[36] = {1};
  double ours = 1e18, theirs = 1e18;
  int64_t a = 0, b = 0;
  insert_token(7, base[1] + 1u, 0, token);
  for (int r = 0; r < 10 * rounds; r++) {
    MEASURE(ours, a = mazhkuri_insert(base, size, id, 16, nonces, 36, token, TOKEN));
    MEASURE(theirs, b = reference_insert(base, size, id, 16, nonces, 36, token));
    check(a == -12 && b == -1, name);
  }
  line(name, ours, theirs, 0);
}

/* A store of 4,096 rows a table, so many of them used in each: as many inserts of one id, of so many fields. */
static void fill_rows(unsigned rows, unsigned fields) {
  fresh(0, 4096);
  for (unsigned i = 0; i < rows; i++) add(i % fields, 0, 0, 1);
}

static void fill_all(unsigned fields) { fill_rows(4096, fields); }

/* The rows of each table in any order. */
static void shuffle(uint8_t *store) {
  static const size_t width[5] = {61, 49, 61, 45, 61};
  uint8_t *at = store + 10, row[61];
  for (int t = 0; t < 5; t++) {
    size_t w = width[t];
    for (size_t i = 4095; i > 0; i--) {
      seed = seed * 6364136223846793005ull + 1442695040888963407ull;
      size_t k = (seed >> 33) % (i + 1);
      memcpy(row, at + w * i, w), memcpy(at + w * i, at + w * k, w), memcpy(at + w * k, row, w);
    }
    at += w * 4096;
  }
}

static void bench_order(const char *name, int64_t wanted) {
  double ours = 1e18, theirs = 1e18;
  int64_t a = 0, b = 0;
  for (int r = 0; r < rounds; r++) {
    memcpy(work, base, size);
    MEASURE(ours, a = mazhkuri_order(work, size));
    memcpy(other, base, size);
    MEASURE(theirs, b = reference_order(other, size));
    check(a == b && a == wanted && memcmp(work, other, size) == 0, name);
  }
  line(name, ours, theirs, 0);
}

/* The check of form, and an order. */
static void bench_forms(void) {
  fresh(0, 4096);
  bench_form("check of form, all rows free");
  fill_entries(0, 0, 2048);
  bench_form("check of form, M, V and R half full");
  fill_all(64);
  bench_form("check of form, all rows used");
  bench_order("order of a full store in form", 5 * 4096);
  shuffle(base);
  bench_order("order of a full store in random order", 5 * 4096);
}

/* A check; and the check of form alone, which it begins with, by an insert with a token of another p. */
static void bench_check(const char *name, int64_t wanted) {
  uint64_t one[7] = {0}, two[7] = {0};
  uint8_t token[TOKEN], id[16] = {1}, nonces[36] = {1};
  double ours = 1e18, theirs = 1e18, form = 1e18;
  int64_t a = 0, b = 0, c = 0;
  insert_token(7, base[1] + 1u, 0, token);
  for (int r = 0; r < 4 * rounds; r++) {
    MEASURE(ours, a = mazhkuri_check(base, size, one));
    MEASURE(theirs, b = reference_check(base, size, two));
    MEASURE(form, c = mazhkuri_insert(base, size, id, 16, nonces, 36, token, TOKEN));
    check(a == b && a == wanted && c == -12 && memcmp(one, two, sizeof one) == 0, name);
  }
  line(name, ours, theirs, 0);
  printf("%-48s %10.1f us; the whole check is %.2f times as long\n", "  the check of form alone", form, ours / form);
  fflush(stdout);
}

/* Every used row of M, V and C gets a tag that begins with the same bytes, so many of them, or of V and R an id; in form again. */
static void alike(int ids, size_t n) {
  static const size_t width[5] = {61, 49, 61, 45, 61}, tag[5] = {1, 17, 1, 0, 0}, id[5] = {0, 1, 0, 0, 1};
  uint8_t *at = base + 10;
  for (int t = 0; t < 5; t++)
    for (size_t i = 0, from = (ids ? id : tag)[t]; i < 4096; i++, at += width[t])
      if (from && at[0]) memset(at + from, 7, n);
  check(mazhkuri_order(base, size) > 0, "set up");
}

/* Of a full store, of one half full, and of full ones whose tags and ids differ late or not at all. */
static void bench_checks(void) {
  fresh(0, 4096);
  bench_check("check, all rows free", 0);
  fill_rows(2048, 64);
  bench_check("check, all tables half full", 0);
  fill_all(64);
  bench_check("check, all rows used", 0);
  alike(0, 2);
  bench_check("check, all used, tags alike in 2 bytes", 0);
  alike(0, 24);
  bench_check("check, all used, tags alike in 24 bytes", 0);
  alike(0, 32);
  bench_check("check, all used, tags alike", 2 * 4095);
  alike(1, 16);
  bench_check("check, all used, tags and ids alike", 2 * 4095);
}

static void bench_compact(const char *name, double floor) {
  uint8_t token[32];
  static uint8_t nonces[12 * 4096];
  double ours = 1e18, theirs = 1e18;
  int64_t a = 0, b = 0;
  mazhkuri_compaction_token(key, 32, token);
  fill(nonces, sizeof nonces);
  for (int r = 0; r < rounds / 10 + 2; r++) {
    memcpy(work, base, size);
    MEASURE(ours, a = mazhkuri_compact(work, size, nonces, sizeof nonces, token, 32));
    memcpy(other, base, size);
    MEASURE(theirs, b = reference_compact(other, size, nonces, sizeof nonces, token));
    check(a == b && a >= 0 && memcmp(work, other, size) == 0, name);
  }
  line(name, ours, theirs, floor);
}

/* A test of an id: yes or no. */
static void bench_test(const char *name, unsigned f, const uint8_t id[16], int64_t wanted, double floor) {
  uint8_t token[32], text[4];
  double ours = 1e18, theirs = 1e18;
  int64_t a = 0, b = 0;
  size_t n = field(text, f);
  mazhkuri_mark_token(key, 32, text, n, empty, 0, token);
  for (int r = 0; r < 10 * rounds; r++) {
    MEASURE(ours, a = mazhkuri_test(base, size, id, 16, token, 32));
    MEASURE(theirs, b = reference_test(base, size, id, token));
    check(a == b && a == wanted, name);
  }
  line(name, ours, theirs, floor);
}

static int by_id(const void *a, const void *b) { return memcmp(a, b, 16); }

/* What a client did without joint finds: a find for each part, and the ids that all of them gave, in the order of the first. */
static int64_t finds_intersected(const uint8_t *parts, size_t n, uint8_t *output) {
  static uint8_t found[65536];
  int64_t kept = mazhkuri_find(base, size, parts, 96, output, 65536);
  for (size_t i = 1; i < n && kept >= 0; i++) {
    int64_t more = mazhkuri_find(base, size, parts + 128 * i, 96, found, sizeof found), left = 0;
    if (more < 0) return more;
    qsort(found, (size_t)more, 16, by_id);
    for (int64_t k = 0; k < kept; k++)
      if (bsearch(output + 16 * k, found, (size_t)more, 16, by_id)) memmove(output + 16 * left++, output + 16 * k, 16);
    kept = left;
  }
  return kept;
}

/* A joint find of these fields, the first of them with the least ids, all of which the others have. */
static void bench_joint(const char *name, const unsigned *fields, size_t n, int64_t ids) {
  uint8_t parts[8 * 128], text[4];
  static uint8_t out3[65536];
  double ours = 1e18, theirs = 1e18, apart = 1e18;
  int64_t a = 0, b = 0, c = 0;
  for (size_t i = 0; i < n; i++) {
    size_t length = field(text, fields[i]);
    check(mazhkuri_part_token(key, 32, text, length, empty, 0, parts + 128 * i) == 128, "part token");
  }
  for (int r = 0; r < rounds; r++) {
    MEASURE(ours, a = mazhkuri_joint_find(base, size, parts, 128 * n, out1, sizeof out1));
    MEASURE(theirs, b = reference_joint_find(base, size, parts, 128 * n, out2, sizeof out2));
    if (r < rounds / 8 + 2) MEASURE(apart, c = finds_intersected(parts, n, out3));
    check(a == b && a == c && a == ids && memcmp(out1, out2, 16 * (size_t)a) == 0 && memcmp(out1, out3, 16 * (size_t)a) == 0, name);
  }
  /* each part's count; the find of one; the RL of the others, and an R mark for each id and other part */
  line(name, ours, theirs, 18.0 * n + 10 + 2.0 * ids + 2.0 * (n - 1) * (1 + ids));
  printf("%-48s %10.1f us; %.1f times as long\n", "  the same by finds, intersected", apart, apart / ours);
  fflush(stdout);
}

/* Fields 2 onward, so many of them, each with its own ids and among them those of field 1, of which there are ten. */
static void fill_joint(unsigned fields, unsigned each) {
  uint8_t ten[160], ids[1024];
  fresh(0, 4096);
  fill(ten, sizeof ten);
  add_ids(1, 0, 0, ten, 10);
  for (unsigned f = 2; f < 2 + fields; f++) {
    add_ids(f, 0, 0, ten, 10);
    for (unsigned left = each - 10; left > 0;) {
      size_t j = left < 64 ? left : 64;
      fill(ids, 16 * j);
      add_ids(f, 0, 0, ids, j);
      left -= (unsigned)j;
    }
  }
  compact_base();
}

static void bench_joints(void) {
  /* M has 4,096 rows at most: with 1,000 in each of seven others, some fields come twice */
  static const unsigned twice[8] = {1, 2, 3, 4, 5, 2, 3, 4}, own[8] = {1, 2, 3, 4, 5, 6, 7, 8};
  uint8_t id[16];
  fill_joint(4, 1000);
  for (size_t n = 1; n <= 8; n *= 2) {
    char name[64];
    snprintf(name, sizeof name, "joint find of %zu, 10 ids, 1,000 in the others", n);
    bench_joint(name, twice, n, 10);
  }
  fill_joint(7, 580);
  bench_joint("joint find of 8 fields, 10 ids, 580 in the others", own, 8, 10);
  id_at(4096, 2000, id);
  bench_test("test of an id with one row in 4,070, no", 9, id, 0, 2 + 2);
  fresh(0, 4096);
  fill(id, 16);
  add_ids(1, 0, 0, id, 1);
  fill_entries(0, 0, 3000);
  bench_test("test of an id with one row in 3,001, yes", 1, id, 1, 2 + 2);
  for (unsigned f = 2; f < 66; f++) add_ids(f, 0, 0, id, 1);
  bench_test("test of an id with 65 rows, no", 70, id, 0, 2 + 2 * 65);
}

static void bench_token(void) {
  uint8_t one[TOKEN], two[TOKEN], nonce[12] = {7};
  const uint8_t name[] = {'h', 'u', 'e'}, value[] = {'r', 'e', 'd'};
  double ours = 1e18, theirs = 1e18;
  for (int r = 0; r < 50 * rounds; r++) {
    MEASURE(ours, mazhkuri_insert_token(key, 32, name, 3, value, 3, 1, 0, nonce, 12, one));
    MEASURE(theirs, reference_insert_token(key, name, 3, value, 3, 1, 0, nonce, two));
    check(memcmp(one, two, TOKEN) == 0, "insert token");
  }
  /* K prepared and its four: 10; two under KM: 6; MT, ME and CL: 24; RL: 4 */
  line("insert token", ours, theirs, 44);
}

/* F with a prepared key: a find over 1,000 addresses in a table M of one row, less the count, which
 * does the same reading. */
static void bench_prepared(void) {
  uint8_t find[96], count[32], text[4], id[16];
  double found = 1e18, counted = 1e18, reference_found = 1e18, reference_counted = 1e18;
  uint64_t rows;
  size_t n = field(text, 1);
  size = MAZHKURI_STORE(1, 4096, 4096, 1);
  check(mazhkuri_make(0, 1, 4096, 4096, 1, base, size) == 0, "make");
  for (int i = 0; i < 1000; i++) {
    add(1, 0, 0, 1);
    id_at(1, 0, id);
    check(mazhkuri_erase(base, size, id, 16) == 1, "set up");
  }
  compact_base();
  mazhkuri_find_token(key, 32, text, n, empty, 0, find);
  mazhkuri_count_token(key, 32, text, n, empty, 0, count);
  for (int r = 0; r < rounds; r++) {
    MEASURE(found, check(mazhkuri_find(base, size, find, 96, out1, sizeof out1) == 0, "find"));
    MEASURE(counted, check(mazhkuri_count(base, size, count, 32) == 1000, "count"));
    MEASURE(reference_found, check(reference_find(base, size, find, out2, sizeof out2) == 0, "find"));
    MEASURE(reference_counted, check(reference_count(base, size, count, &rows) == 1000, "count"));
  }
  double ours = (found - counted) / 1000, theirs = (reference_found - reference_counted) / 1000;
  printf("%-48s %10.3f us %10.3f us   ratio %5.2f   floor %9.3f us\n", "F, prepared key", ours, theirs,
         ours / theirs, 2 * compression);
}

/* Entries with many to an id, and few ids among the entries of another field. */
static void bench_repeats(void) {
  uint8_t ids[100 * 16];
  fill(ids, sizeof ids);
  fresh(0, 4096);
  fill_of(0, 0, 4000, ids, 100);
  bench_find("find of 4000 entries of 100 ids, p = 0", 1, 100, 6 + (2 + 8 + 6 + 6) + 2.0 * 4000);
  fresh(0, 4096);
  fill_entries(0, 0, 3990);
  add(2, 0, 0, 10);
  bench_find("find of 10 ids in a store of 4000, p = 0", 2, 10, 6 + (2 + 8 + 6 + 6) + 2.0 * 10);
}

/* One line of each operation in a store of m rows a table. */
static void growth(unsigned m) {
  char name[80];
  uint8_t id[16];
  fresh(0, m);
  fill_entries(0, 0, m / 2);
  snprintf(name, sizeof name, "m = %u, half full: insert of 1", m);
  bench_insert(name, 1, INSERT_FLOOR(1));
  snprintf(name, sizeof name, "m = %u, half full: count", m);
  bench_count(name, 1, 2 + 2 + 8 + 6);
  snprintf(name, sizeof name, "m = %u, half full: find of %u", m, m / 2);
  bench_find(name, 1, m / 2, 2 + 2 + 8 + 6 + 4 + 6 + 2.0 * (m / 2));
  id_at(m, 0, id);
  snprintf(name, sizeof name, "m = %u, half full: erase", m);
  bench_erase(name, id, 1);
  for (unsigned i = 0; i < m / 4; i++) add(2 + i % 4, 0, 0, 1);
  snprintf(name, sizeof name, "m = %u: compaction of %u rows, 4 labels", m, m / 4);
  bench_compact(name, 4 * (8 + 4) + 2.0 * (m / 4));
}

int main(int count, char **arguments) {
  uint8_t id[16], block[64] = {0};
  SHA256_CTX c;
  if (count > 1) rounds = atoi(arguments[1]);
  compression = 1e18;
  SHA256_Init(&c);
  for (int r = 0; r < 2000; r++) {
    double took = 1e18;
    MEASURE(took, for (int i = 0; i < 100; i++) SHA256_Transform(&c, block));
    if (took / 100 < compression) compression = took / 100;
  }
  printf("one compression of OpenSSL: %.3f us; library, reference, ratio, floor by compressions\n", compression);
  bench_token();
  bench_prepared();
  bench_forms();
  bench_checks();
  for (int full = 0; full < 3; full++) {
    static const char *title[3][2] = {{"insert of 1, empty", "insert of 64, empty"},
                                      {"insert of 1, half full", "insert of 64, half full"},
                                      {"insert of 1, 95 % full", "insert of 64, 95 % full"}};
    static const size_t entries[3] = {0, 2048, 3891};
    fresh(0, 4096);
    fill_entries(0, 0, entries[full]);
    bench_insert(title[full][0], 1, INSERT_FLOOR(1));
    bench_insert(title[full][1], 64, INSERT_FLOOR(64));
  }
  for (int i = 0; i < 3; i++) {
    static const unsigned inserts[3] = {1, 100, 1000};
    char name[64];
    fresh(0, 4096);
    for (unsigned j = 0; j < inserts[i]; j++) add(1, 0, 0, 1);
    snprintf(name, sizeof name, "count after %u uncompacted inserts", inserts[i]);
    bench_count(name, 1, 2 + 2 + 8 + 4 + 2.0 * inserts[i]);
  }
  for (unsigned p = 0; p <= 3; p += 3)
    for (int i = 0; i < 3; i++) {
      static const unsigned ids[3] = {10, 1000, 4000};
      char name[64];
      fresh(p, 4096);
      if (p == 0) {
        fill_entries(0, 0, ids[i]);
      } else {
        for (unsigned u = 0; u < 4; u++) fill_entries(3, u, ids[i] / 4 + (u < ids[i] % 4));
      }
      snprintf(name, sizeof name, "find of %u ids, p = %u", ids[i], p);
      bench_find(name, 1, ids[i], 6 + (p + 1) * (2 + 8 + 6 + 6) + 2.0 * ids[i]);
    }
  bench_repeats();
  bench_joints();
  fresh(0, 4096);
  fill_entries(0, 0, 4000);
  id_at(4096, 2000, id);
  bench_erase("erase of one entry of 4,000", id, 1);
  fresh(0, 4096);
  fill(id, 16);
  fill_of(0, 0, 1000, id, 1);
  fill_entries(0, 0, 3000);
  bench_erase("erase of an id held 1,000 times, of 4,000", id, 1000);
  for (int i = 0; i < 4; i++) {
    static const unsigned rows[4] = {1000, 4000, 1000, 4000}, labels[4] = {4, 4, 1000, 4000};
    char name[64];
    fresh(0, 4096);
    for (unsigned j = 0; j < rows[i]; j++) add(j % labels[i], 0, 0, 1);
    snprintf(name, sizeof name, "compaction of %u rows, %u labels", rows[i], labels[i]);
    bench_compact(name, labels[i] * 12.0 + 2.0 * rows[i]);
  }
  growth(256);
  growth(1024);
  growth(4096);
  return 0;
}
