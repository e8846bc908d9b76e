/* paint_compare ROWS COLS TIMES: compares by memcmp as many bytes as the cells of a screen have, TIMES times. It prints `memcmp`, the bytes,
   TIMES, and the microseconds that passed. */
#include <stdio.h>
#include <stdlib.h>
#include <string.h>
#include <time.h>

int main(int count, char **words) {
  if (count != 4) return 1;
  size_t bytes = 20 * (size_t)atoi(words[1]) * (size_t)atoi(words[2]);
  int times = atoi(words[3]);
  char *one = malloc(bytes), *other = malloc(bytes);
  if (one == NULL || other == NULL) return 1;
  memset(one, 1, bytes);
  memset(other, 1, bytes);
  /* Call through a pointer that may change, so that no call is optimized away. */
  int (*volatile compare)(const void *, const void *, size_t) = memcmp;
  struct timespec start, end;
  clock_gettime(CLOCK_MONOTONIC, &start);
  for (int k = 0; k < times; k++)
    if (compare(one, other, bytes) != 0) return 1;
  clock_gettime(CLOCK_MONOTONIC, &end);
  double passed = (end.tv_sec - start.tv_sec) * 1e6 + (end.tv_nsec - start.tv_nsec) / 1e3;
  printf("memcmp %zu %d %.0f\n", bytes, times, passed);
  return 0;
}
