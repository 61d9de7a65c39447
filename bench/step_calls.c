/* How long so many steps of a BRR decoder take: one code after another, each from the state before it, sixteen to a head.

     step_calls COUNT   prints the seconds, and the last output so that the steps cannot be left out */
#include <stdint.h>
#include <stdio.h>
#include <stdlib.h>
#include <time.h>

static int32_t predicted(int filter, int32_t last, int32_t older) {
  switch (filter) {
    case 0: return 0;
    case 1: return last + (-last >> 4);
    case 2: return 2 * last + (-3 * last >> 5) - older + (older >> 4);
    default: return 2 * last + (-13 * last >> 6) - older + (3 * older >> 4);
  }
}

/* One output: the sample of a code under a shift and a filter, clamped to 16 bits and cut to 15. */
static int32_t step(int shift, int filter, int code, int32_t last, int32_t older) {
  int32_t n = code < 8 ? code : code - 16, sample = shift <= 12 ? n * (1 << shift) >> 1 : n < 0 ? -2048 : 0;
  int32_t sum = sample + predicted(filter, last, older);
  sum = sum < -32768 ? -32768 : sum > 32767 ? 32767 : sum;
  return ((sum + 16384) & 32767) - 16384;
}

int main(int count, char **words) {
  long steps = count == 2 ? atol(words[1]) : 0;
  int32_t last = 0, older = 0;
  uint32_t seed = 1, head = 0;
  struct timespec begin, end;
  clock_gettime(CLOCK_MONOTONIC, &begin);
  for (long i = 0; i < steps; i++) {
    seed = seed * 1664525 + 1013904223;
    if (i % 16 == 0) head = seed >> 26;
    int32_t next = step(head & 15, head >> 4, seed >> 28, last, older);
    older = last;
    last = next;
  }
  clock_gettime(CLOCK_MONOTONIC, &end);
  printf("%.6f %d\n", end.tv_sec - begin.tv_sec + 1e-9 * (end.tv_nsec - begin.tv_nsec), last);
}
