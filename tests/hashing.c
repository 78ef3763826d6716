/* Hash and F of messages and keys that stand in heap blocks of exactly their size, so that valgrind sees a read or write past
 * them [02:W5.1 W5.3]. Standard input: the number of records; for each its key and its message, each after its length, then the
 * digest of the message and the tag, which tests/hashing.py has from Python's hashlib and hmac. A number is 4 bytes, big-endian. */
#include "../include/mazhkuri.h"

#include <stdio.h>
#include <stdlib.h>
#include <string.h>

/* The next bytes in a block of their own; malloc gives one for no bytes too. */
static uint8_t *next(size_t n) {
  uint8_t *p = malloc(n);
  if (!p || fread(p, 1, n, stdin) != n) {
    printf("the records end too soon\n");
    exit(1);
  }
  return p;
}

static size_t number(void) {
  uint8_t *p = next(4);
  size_t n = (size_t)p[0] << 24 | (size_t)p[1] << 16 | (size_t)p[2] << 8 | p[3];
  free(p);
  return n;
}

static void expect(const char *what, size_t k, size_t n, int as_wanted) {
  if (as_wanted) return;
  printf("%s, a key of %zu bytes, a message of %zu: not as expected\n", what, k, n);
  exit(1);
}

static void record(void) {
  size_t k = number();
  uint8_t *key = next(k);
  size_t n = number();
  uint8_t *message = next(n), *digest = next(32), *tag = next(32), *out = malloc(32);
  if (!out) exit(1);
  memset(out, 0xee, 32);
  expect("hash", k, n, mazhkuri_sha256(message, n, out) == 0 && memcmp(out, digest, 32) == 0);
  memset(out, 0xee, 32);
  expect("F", k, n, mazhkuri_hmac(key, k, message, n, out) == 0 && memcmp(out, tag, 32) == 0);
  free(key), free(message), free(digest), free(tag), free(out);
}

int main(void) {
  size_t records = number();
  for (size_t i = 0; i < records; i++) record();
  /* every one of 11 keys with every one of 11 messages */
  if (records != 121 || getchar() != EOF) {
    printf("not as many records as there have to be: %zu\n", records);
    return 1;
  }
  printf("%zu hashes and %zu F in blocks of exact size: as hashlib and hmac give them\n", records, records);
  return 0;
}
