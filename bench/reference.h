/* The operations in plain C over OpenSSL's primitives; see reference.c. */
#ifndef REFERENCE_H
#define REFERENCE_H
#include <stddef.h>
#include <stdint.h>

void reference_insert_token(const uint8_t key[32], const uint8_t *name, size_t name_length,
                            const uint8_t *value, size_t value_length, uint8_t p, uint64_t u,
                            const uint8_t nonce[12], uint8_t token[173]);
int64_t reference_insert(uint8_t *store, size_t n, const uint8_t *ids, size_t id_bytes,
                         const uint8_t *nonces, size_t nonce_bytes, const uint8_t token[173]);
int64_t reference_erase(uint8_t *store, size_t n, const uint8_t id[16]);
int64_t reference_find(uint8_t *store, size_t n, const uint8_t token[96], uint8_t *output, size_t room);
/* Tells the rows looked at too. */
int64_t reference_count(uint8_t *store, size_t n, const uint8_t token[32], uint64_t *rows);
int64_t reference_compact(uint8_t *store, size_t n, const uint8_t *nonces, size_t nonce_bytes,
                          const uint8_t token[32]);
int64_t reference_order(uint8_t *store, size_t n);
int64_t reference_test(uint8_t *store, size_t n, const uint8_t id[16], const uint8_t token[32]);
int64_t reference_joint_find(uint8_t *store, size_t n, const uint8_t *parts, size_t part_bytes, uint8_t *output, size_t room);
int64_t reference_check(uint8_t *store, size_t n, uint64_t numbers[7]);
#endif
