/* How fast hash, F and E are (document 01, "Keyed function and cipher"), as ratios: our static
 * library, plain C that follows the standards line by line, and OpenSSL. All contenders of a line
 * are measured in turn within one run, many rounds, and the best round of each counts.
 *   primitives [ROUNDS]
 */
#define OPENSSL_SUPPRESS_DEPRECATED
#include <openssl/core_names.h>
#include <openssl/evp.h>
#include <openssl/hmac.h>
#include <openssl/params.h>
#include <stdint.h>
#include <stdio.h>
#include <stdlib.h>
#include <string.h>
#include <time.h>

#include "mazhkuri.h"

/* Plain C: SHA-256 of FIPS 180-4. Called and not inlined, as a library's function is. */

static const uint32_t K[64] = {
    0x428a2f98, 0x71374491, 0xb5c0fbcf, 0xe9b5dba5, 0x3956c25b, 0x59f111f1, 0x923f82a4, 0xab1c5ed5,
    0xd807aa98, 0x12835b01, 0x243185be, 0x550c7dc3, 0x72be5d74, 0x80deb1fe, 0x9bdc06a7, 0xc19bf174,
    0xe49b69c1, 0xefbe4786, 0x0fc19dc6, 0x240ca1cc, 0x2de92c6f, 0x4a7484aa, 0x5cb0a9dc, 0x76f988da,
    0x983e5152, 0xa831c66d, 0xb00327c8, 0xbf597fc7, 0xc6e00bf3, 0xd5a79147, 0x06ca6351, 0x14292967,
    0x27b70a85, 0x2e1b2138, 0x4d2c6dfc, 0x53380d13, 0x650a7354, 0x766a0abb, 0x81c2c92e, 0x92722c85,
    0xa2bfe8a1, 0xa81a664b, 0xc24b8b70, 0xc76c51a3, 0xd192e819, 0xd6990624, 0xf40e3585, 0x106aa070,
    0x19a4c116, 0x1e376c08, 0x2748774c, 0x34b0bcb5, 0x391c0cb3, 0x4ed8aa4a, 0x5b9cca4f, 0x682e6ff3,
    0x748f82ee, 0x78a5636f, 0x84c87814, 0x8cc70208, 0x90befffa, 0xa4506ceb, 0xbef9a3f7, 0xc67178f2};

static uint32_t rotr(uint32_t x, int n) { return x >> n | x << (32 - n); }

static void plain_compress(uint32_t h[8], const uint8_t *block) {
  uint32_t w[64];
  for (int t = 0; t < 16; t++)
    w[t] = (uint32_t)block[4 * t] << 24 | (uint32_t)block[4 * t + 1] << 16 |
           (uint32_t)block[4 * t + 2] << 8 | block[4 * t + 3];
  for (int t = 16; t < 64; t++) {
    uint32_t s0 = rotr(w[t - 15], 7) ^ rotr(w[t - 15], 18) ^ w[t - 15] >> 3;
    uint32_t s1 = rotr(w[t - 2], 17) ^ rotr(w[t - 2], 19) ^ w[t - 2] >> 10;
    w[t] = s1 + w[t - 7] + s0 + w[t - 16];
  }
  uint32_t a = h[0], b = h[1], c = h[2], d = h[3], e = h[4], f = h[5], g = h[6], i = h[7];
  for (int t = 0; t < 64; t++) {
    uint32_t t1 =
        i + (rotr(e, 6) ^ rotr(e, 11) ^ rotr(e, 25)) + ((e & f) ^ (~e & g)) + K[t] + w[t];
    uint32_t t2 = (rotr(a, 2) ^ rotr(a, 13) ^ rotr(a, 22)) + ((a & b) ^ (a & c) ^ (b & c));
    i = g, g = f, f = e, e = d + t1, d = c, c = b, b = a, a = t1 + t2;
  }
  h[0] += a, h[1] += b, h[2] += c, h[3] += d, h[4] += e, h[5] += f, h[6] += g, h[7] += i;
}

__attribute__((noinline)) static void plain_hash(const uint8_t *message, size_t length, uint8_t digest[32]) {
  uint32_t h[8] = {0x6a09e667, 0xbb67ae85, 0x3c6ef372, 0xa54ff53a,
                   0x510e527f, 0x9b05688c, 0x1f83d9ab, 0x5be0cd19};
  uint8_t tail[128] = {0};
  size_t full = length / 64 * 64, rest = length - full, end = rest < 56 ? 64 : 128;
  for (size_t at = 0; at < full; at += 64) plain_compress(h, message + at);
  memcpy(tail, message + full, rest);
  tail[rest] = 0x80;
  for (int i = 0; i < 8; i++) tail[end - 1 - i] = (uint8_t)(((uint64_t)length * 8) >> (8 * i));
  for (size_t at = 0; at < end; at += 64) plain_compress(h, tail + at);
  for (int i = 0; i < 32; i++) digest[i] = (uint8_t)(h[i / 4] >> (24 - 8 * (i % 4)));
}

/* Plain C: ChaCha20 of RFC 8439. */

static uint32_t rotl(uint32_t x, int n) { return x << n | x >> (32 - n); }

#define QUARTER(a, b, c, d)                  \
  a += b, d = rotl(d ^ a, 16), c += d, b = rotl(b ^ c, 12); \
  a += b, d = rotl(d ^ a, 8), c += d, b = rotl(b ^ c, 7)

static uint32_t little(const uint8_t *p) {
  return p[0] | (uint32_t)p[1] << 8 | (uint32_t)p[2] << 16 | (uint32_t)p[3] << 24;
}

__attribute__((noinline)) static void plain_cipher(const uint8_t key[32], const uint8_t nonce[12],
                                                   uint8_t *text, size_t length) {
  uint32_t s[16] = {0x61707865, 0x3320646e, 0x79622d32, 0x6b206574};
  for (int i = 0; i < 8; i++) s[4 + i] = little(key + 4 * i);
  s[12] = 1;
  for (int i = 0; i < 3; i++) s[13 + i] = little(nonce + 4 * i);
  for (size_t at = 0; at < length; at += 64) {
    uint32_t x[16];
    uint8_t stream[64];
    memcpy(x, s, sizeof x);
    for (int i = 0; i < 10; i++) {
      QUARTER(x[0], x[4], x[8], x[12]);
      QUARTER(x[1], x[5], x[9], x[13]);
      QUARTER(x[2], x[6], x[10], x[14]);
      QUARTER(x[3], x[7], x[11], x[15]);
      QUARTER(x[0], x[5], x[10], x[15]);
      QUARTER(x[1], x[6], x[11], x[12]);
      QUARTER(x[2], x[7], x[8], x[13]);
      QUARTER(x[3], x[4], x[9], x[14]);
    }
    for (int i = 0; i < 16; i++) {
      uint32_t word = x[i] + s[i];
      stream[4 * i] = (uint8_t)word;
      stream[4 * i + 1] = (uint8_t)(word >> 8);
      stream[4 * i + 2] = (uint8_t)(word >> 16);
      stream[4 * i + 3] = (uint8_t)(word >> 24);
    }
    size_t n = length - at < 64 ? length - at : 64;
    for (size_t i = 0; i < n; i++) text[at + i] ^= stream[i];
    s[12]++;
  }
}

/* Contenders: each does its work `times` times on the same bytes. */

static uint8_t key[32], nonce[12], text[65536], digest[32];
static EVP_MD_CTX *md;
static EVP_CIPHER_CTX *cipher;
static HMAC_CTX *hmac_context;
static EVP_MAC_CTX *mac_context;
static size_t size;

static void ours_hash(uint64_t times) { while (times--) mazhkuri_sha256(text, size, digest); }
static void c_hash(uint64_t times) { while (times--) plain_hash(text, size, digest); }
static void openssl_hash(uint64_t times) {
  while (times--) {
    EVP_DigestInit_ex(md, EVP_sha256(), NULL);
    EVP_DigestUpdate(md, text, size);
    EVP_DigestFinal_ex(md, digest, NULL);
  }
}

/* A number of 8 bytes, big-endian. */
static void put(uint8_t number[8], uint64_t x) {
  for (int i = 0; i < 8; i++) number[i] = (uint8_t)(x >> (56 - 8 * i));
}

static void ours_one_shot(uint64_t times) {
  uint8_t number[8];
  for (uint64_t x = 0; x < times; x++) {
    put(number, x);
    mazhkuri_hmac(key, 32, number, 8, digest);
  }
}
static void openssl_hmac(uint64_t times) {
  uint8_t number[8];
  for (uint64_t x = 0; x < times; x++) {
    put(number, x);
    HMAC_Init_ex(hmac_context, NULL, 0, NULL, NULL);
    HMAC_Update(hmac_context, number, 8);
    HMAC_Final(hmac_context, digest, NULL);
  }
}
static void openssl_mac(uint64_t times) {
  uint8_t number[8];
  size_t length;
  for (uint64_t x = 0; x < times; x++) {
    put(number, x);
    EVP_MAC_init(mac_context, NULL, 0, NULL);
    EVP_MAC_update(mac_context, number, 8);
    EVP_MAC_final(mac_context, digest, &length, 32);
  }
}

static void ours_cipher(uint64_t times) {
  while (times--) mazhkuri_chacha20(key, 32, nonce, 12, text, size);
}
static void c_cipher(uint64_t times) { while (times--) plain_cipher(key, nonce, text, size); }
static void openssl_cipher(uint64_t times) {
  uint8_t iv[16] = {1};
  int n;
  memcpy(iv + 4, nonce, 12);
  while (times--) {
    EVP_EncryptInit_ex(cipher, NULL, NULL, key, iv);
    EVP_EncryptUpdate(cipher, text, &n, text, (int)size);
  }
}

typedef struct {
  const char *name;
  void (*run)(uint64_t times);
  const uint8_t *result;
} Contender;

static double seconds(void) {
  struct timespec t;
  clock_gettime(CLOCK_MONOTONIC, &t);
  return (double)t.tv_sec + (double)t.tv_nsec * 1e-9;
}

/* All contenders give the same bytes. A second pass of a cipher gives the text back. */
static void same(const char *what, const Contender *c, int n) {
  uint8_t first[32];
  for (int i = 0; i < n; i++) {
    memset(digest, 0, sizeof digest);
    c[i].run(1);
    if (i == 0) memcpy(first, c[i].result, 32);
    if (memcmp(first, c[i].result, 32)) {
      printf("%s: %s gives other bytes than %s\n", what, c[i].name, c[0].name);
      exit(1);
    }
    if (c[i].result == text) c[i].run(1);
  }
}

/* The first contender is ours; a ratio above 1 says that ours takes longer. */
static void line(const char *what, size_t bytes, uint64_t times, int rounds, const Contender *c,
                 int n) {
  double best[8];
  size = bytes;
  same(what, c, n);
  for (int i = 0; i < n; i++) best[i] = 1e9;
  for (int r = 0; r < rounds; r++)
    for (int i = 0; i < n; i++) {
      double began = seconds();
      c[i].run(times);
      double took = (seconds() - began) / (double)times * 1e9;
      if (took < best[i]) best[i] = took;
    }
  printf("%-26s %s %.1f ns", what, c[0].name, best[0]);
  for (int i = 1; i < n; i++)
    printf("; %s %.1f ns, ratio %.2f", c[i].name, best[i], best[0] / best[i]);
  printf("\n");
}

int main(int count, char **words) {
  int rounds = count > 1 ? atoi(words[1]) : 60;
  for (int i = 0; i < 32; i++) key[i] = (uint8_t)(7 * i + 1);
  for (int i = 0; i < 12; i++) nonce[i] = (uint8_t)i;
  for (size_t i = 0; i < sizeof text; i++) text[i] = (uint8_t)(i * 31 + i / 256);
  md = EVP_MD_CTX_new();
  cipher = EVP_CIPHER_CTX_new();
  EVP_EncryptInit_ex(cipher, EVP_chacha20(), NULL, NULL, NULL);
  hmac_context = HMAC_CTX_new();
  HMAC_Init_ex(hmac_context, key, 32, EVP_sha256(), NULL);
  EVP_MAC *mac = EVP_MAC_fetch(NULL, "HMAC", NULL);
  OSSL_PARAM params[] = {OSSL_PARAM_construct_utf8_string(OSSL_MAC_PARAM_DIGEST, "SHA256", 0),
                         OSSL_PARAM_construct_end()};
  mac_context = EVP_MAC_CTX_new(mac);
  EVP_MAC_init(mac_context, key, 32, params);

  const Contender hash[] = {
      {"ours", ours_hash, digest}, {"C -O3", c_hash, digest}, {"OpenSSL", openssl_hash, digest}};
  const Contender one_shot[] = {{"ours", ours_one_shot, digest},
                                {"HMAC_CTX, reused", openssl_hmac, digest},
                                {"EVP_MAC, reused", openssl_mac, digest}};
  const Contender text_of[] = {
      {"ours", ours_cipher, text}, {"C -O3", c_cipher, text}, {"OpenSSL", openssl_cipher, text}};
  line("SHA-256, 64 KiB", 65536, 4, rounds, hash, 3);
  line("SHA-256, 1 KiB", 1024, 200, rounds, hash, 3);
  line("SHA-256, 32 bytes", 32, 2000, rounds, hash, 3);
  line("F, one shot, 8 bytes", 8, 2000, rounds, one_shot, 3);
  line("ChaCha20, 16 bytes", 16, 5000, rounds, text_of, 3);
  line("ChaCha20, 64 KiB", 65536, 4, rounds, text_of, 3);
  return 0;
}
