/* append FILE COMMITS OCTETS: appends so many octets in each of so many commits, in the way of the journal: the octets are
   written and synced, and then one octet in front of them. Prints the time in nanoseconds. */
#define _GNU_SOURCE
#include <fcntl.h>
#include <stdint.h>
#include <stdio.h>
#include <stdlib.h>
#include <string.h>
#include <time.h>
#include <unistd.h>

static uint64_t now(void) {
    struct timespec t;
    clock_gettime(CLOCK_MONOTONIC, &t);
    return t.tv_sec * 1000000000ull + t.tv_nsec;
}

int main(int argc, char **argv) {
    int file = open(argv[1], O_CREAT | O_RDWR | O_TRUNC, 0600);
    long commits = atol(argv[2]), octets = atol(argv[3]);
    char *text = calloc(1, octets);
    if (argc < 4 || file < 0 || !text) return 1;
    memset(text, 7, octets);
    uint64_t start = now();
    for (long n = 0; n < commits; n++) {
        off_t at = (off_t)n * octets;
        if (pwrite(file, text, octets, at + 1) != octets || fdatasync(file)) return 1;
        if (pwrite(file, text, 1, at) != 1 || fdatasync(file)) return 1;
    }
    printf("%llu\n", (unsigned long long)(now() - start));
    return 0;
}
