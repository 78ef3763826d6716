/* What the measurements share: the time in microseconds, and bytes that look random and are the same in every run. */
#ifndef MEASURE_H
#define MEASURE_H

#include <stddef.h>
#include <stdint.h>
#include <time.h>

static double now(void) {
  struct timespec t;
  clock_gettime(CLOCK_MONOTONIC, &t);
  return t.tv_sec * 1e6 + t.tv_nsec * 1e-3;
}

static uint64_t seed = 1;
static void fill(uint8_t *to, size_t n) {
  for (size_t i = 0; i < n; i++) {
    seed = seed * 6364136223846793005ull + 1442695040888963407ull;
    to[i] = (uint8_t)(seed >> 56);
  }
}

#endif
