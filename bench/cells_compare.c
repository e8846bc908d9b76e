// cells_compare CELLS TIMES: compares two equal lists of CELLS cells of 16 bytes by memcmp, TIMES times. It prints `memcmp`, CELLS, TIMES, the
// microseconds that passed, and a number that depends on the result, so that no comparison is optimized away.
#include <stdio.h>
#include <stdlib.h>
#include <string.h>
#include <time.h>

int main(int argc, char **argv) {
    if (argc != 3) return 2;
    size_t cells = strtoul(argv[1], NULL, 10), size = cells * 16;
    long times = strtol(argv[2], NULL, 10), same = 0;
    unsigned char *one = malloc(size), *two = malloc(size);
    if (!one || !two) return 1;
    memset(one, 'a', size);
    memset(two, 'a', size);
    int (*volatile compare)(const void *, const void *, size_t) = memcmp;
    struct timespec start, end;
    clock_gettime(CLOCK_MONOTONIC, &start);
    for (long i = 0; i < times; i++) same += compare(one, two, size) == 0;
    clock_gettime(CLOCK_MONOTONIC, &end);
    double micros = (end.tv_sec - start.tv_sec) * 1e6 + (end.tv_nsec - start.tv_nsec) / 1e3;
    printf("memcmp %zu %ld %.0f %ld\n", cells, times, micros, same);
    return 0;
}
