// Reads files of frames in pieces of 64 KiB and counts their words once, in one plain loop, for bench/qc to set the program's beside:
// a line for each file with the words near the top of the range, those near its bottom, and all codes added up.
//
//     count_files FILE..
#include <fcntl.h>
#include <stdint.h>
#include <stdio.h>
#include <string.h>
#include <unistd.h>

enum { HEADER = 2048, PIECE = 65536 };

static uint8_t piece[PIECE];
static uint64_t high, low, sum;

static uint32_t most(uint32_t a, uint32_t b) { return a > b ? a : b; }
static uint32_t least(uint32_t a, uint32_t b) { return a < b ? a : b; }

static void count(const uint8_t *bytes, int words) {
    for (int i = 0; i < words; i++) {
        uint32_t word;
        memcpy(&word, bytes + 4 * i, 4);
        word = __builtin_bswap32(word);
        uint32_t r = word >> 22, g = word >> 12 & 1023, b = word >> 2 & 1023;
        high += most(most(r, g), b) >= 1020;
        low += least(least(r, g), b) <= 3;
        sum += r + g + b;
    }
}

int main(int files, char **names) {
    for (int n = 1; n < files; n++) {
        int file = open(names[n], O_RDONLY);
        if (file < 0 || lseek(file, HEADER, SEEK_SET) < 0) return 1;
        high = low = sum = 0;
        for (ssize_t len; (len = read(file, piece, PIECE)) > 0;) count(piece, len / 4);
        close(file);
        printf("%llu %llu %llu\n", (unsigned long long)high, (unsigned long long)low, (unsigned long long)sum);
    }
    return 0;
}
