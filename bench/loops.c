// The pixel rules as plain loops, for bench/kernels, bench/qc and bench/sheet to set the program's beside: picoseconds of processor
// time a pixel (and a sum, so that no loop is left out) of a copy, of a cut from words to bytes, of a dissolve, of a look of one
// dimension with 1,024 places, of one of three with 33 a side, of the three counts of the quality table, and of the contact
// sheet's boxes of 16 by 16 pixels. Where each code lies between two places is found once, as in the program.
//
//     loops smooth|noise      the words are those of ramps with noise, or noise alone
#include <stdint.h>
#include <stdio.h>
#include <stdlib.h>
#include <string.h>
#include <time.h>

enum { PIXELS = 1 << 17, WIDE = 2048, SIDE = 33, LONG = 1024 };

static uint16_t cube[SIDE * SIDE * SIDE][3], line[LONG][3];
static int64_t low[3], high[3] = {1000000000, 1000000000, 1000000000};
static uint32_t old[PIXELS], incoming[PIXELS], out[PIXELS];

// As in the program bench_kernels.
static void fill(uint32_t *words, uint32_t state, int smooth) {
    for (uint32_t i = 0; i < PIXELS; i++) {
        state = state * 1664525 + 1013904223;
        uint32_t x = i % WIDE, y = i / WIDE;
        uint32_t r = x / 2 + 4 * y + (state >> 27), g = x / 4 + (state >> 22 & 31), b = x / 2 + 4 * y + 300 + (state >> 17 & 31);
        words[i] = smooth ? (r & 1023) << 22 | (g & 1023) << 12 | (b & 1023) << 2 : state & ~3u;
    }
}

static uint32_t code(uint32_t word, int channel) { return word >> (22 - 10 * channel) & 1023; }

static uint32_t mixed(uint32_t a, uint32_t b, uint64_t k, uint64_t d) {
    return (a * (2 * d - 2 * k - 1) + b * (2 * k + 1) + d) / (2 * d);
}

// No compiler knows how long a dissolve is.
static volatile uint64_t duration = 24;

static void dissolve(void) {
    uint64_t k = 3 + clock() % 3, d = duration;
    for (int i = 0; i < PIXELS; i++) {
        uint32_t word = 0;
        for (int c = 0; c < 3; c++) word |= mixed(code(old[i], c), code(incoming[i], c), k, d) << (22 - 10 * c);
        out[i] = word;
    }
}

struct spot {
    uint32_t cell, part;
};

static struct spot on_line[3][1024], on_cube[3][1024];

static struct spot spot(uint32_t code, int channel, int64_t places) {
    int64_t reach = 1023 * (high[channel] - low[channel]);
    int64_t come = code * INT64_C(1000000000) - 1023 * low[channel];
    int64_t way = (come < 0 ? 0 : come) * (places - 1);
    if (way > (places - 1) * reach) way = (places - 1) * reach;
    int64_t cell = way / reach;
    if (cell > places - 2) cell = places - 2;
    return (struct spot){cell, 65536 * (way - cell * reach) / reach};
}

static uint32_t nearest(uint32_t sum) { return (sum + 65536 * 32) / (65536 * 64); }

static void look_1d(void) {
    for (int i = 0; i < PIXELS; i++) {
        uint32_t word = 0;
        for (int c = 0; c < 3; c++) {
            struct spot s = on_line[c][code(old[i], c)];
            word |= nearest(line[s.cell][c] * (65536 - s.part) + line[s.cell + 1][c] * s.part) << (22 - 10 * c);
        }
        out[i] = word;
    }
}

static void look_3d(void) {
    static const uint32_t step[3] = {1, SIDE, SIDE * SIDE};
    for (int i = 0; i < PIXELS; i++) {
        struct spot s[3];
        int order[3] = {0, 1, 2};
        for (int c = 0; c < 3; c++) s[c] = on_cube[c][code(old[i], c)];
        for (int a = 1; a < 3; a++)
            for (int b = a; b > 0 && s[order[b - 1]].part < s[order[b]].part; b--) {
                int turned = order[b];
                order[b] = order[b - 1];
                order[b - 1] = turned;
            }
        uint32_t entry = s[0].cell + SIDE * (s[1].cell + SIDE * s[2].cell), weight = 65536, sum[3] = {0};
        for (int n = 0; n < 4; n++) {
            uint32_t part = n < 3 ? s[order[n]].part : 0;
            for (int c = 0; c < 3; c++) sum[c] += cube[entry][c] * (weight - part);
            if (n < 3) entry += step[order[n]];
            weight = part;
        }
        out[i] = nearest(sum[0]) << 22 | nearest(sum[1]) << 12 | nearest(sum[2]) << 2;
    }
}

static uint32_t most(uint32_t a, uint32_t b) { return a > b ? a : b; }
static uint32_t least(uint32_t a, uint32_t b) { return a < b ? a : b; }

static void counts(void) {
    uint64_t high_words = 0, low_words = 0, sum = 0;
    for (int i = 0; i < PIXELS; i++) high_words += most(most(code(old[i], 0), code(old[i], 1)), code(old[i], 2)) >= 1020;
    for (int i = 0; i < PIXELS; i++) low_words += least(least(code(old[i], 0), code(old[i], 1)), code(old[i], 2)) <= 3;
    for (int i = 0; i < PIXELS; i++) sum += code(old[i], 0) + code(old[i], 1) + code(old[i], 2);
    out[0] = high_words;
    out[1] = low_words;
    out[2] = sum;
}

static void boxes(void) {
    static uint64_t sums[4][PIXELS / 256];
    memset(sums, 0, sizeof sums);
    for (int y = 0; y < PIXELS / WIDE; y++)
        for (int x = 0; x < WIDE; x++) {
            int at = y / 16 * (WIDE / 16) + x / 16;
            uint32_t word = old[y * WIDE + x];
            for (int c = 0; c < 3; c++) sums[c][at] += code(word, c);
            sums[3][at]++;
        }
    for (int at = 0; at < PIXELS / 256; at++)
        for (int c = 0; c < 3; c++) out[3 * at + c] = (2 * sums[c][at] + sums[3][at]) / (2 * sums[3][at]);
}

static void copy(void) {
    for (int i = 0; i < PIXELS; i++) out[i] = old[i];
}

static void cut(void) {
    for (int i = 0; i < PIXELS; i++) out[i] = __builtin_bswap32(old[i] & ~3u);
}

static double processor(void) {
    struct timespec now;
    clock_gettime(CLOCK_PROCESS_CPUTIME_ID, &now);
    return now.tv_sec * 1e9 + now.tv_nsec;
}

static void measure(const char *name, void (*loop)(void)) {
    double best = 1e18;
    for (int n = 0; n < 60; n++) {
        double start = processor();
        loop();
        double time = processor() - start;
        if (time < best) best = time;
    }
    uint32_t sum = 0;
    for (int n = 0; n < PIXELS; n++) sum += out[n];
    printf("%s %.0f %u\n", name, 1000 * best / PIXELS, sum);
}

int main(int count, char **words) {
    int smooth = count > 1 && strcmp(words[1], "smooth") == 0;
    for (int n = 0; n < SIDE * SIDE * SIDE; n++) {
        int r = n % SIDE, g = n / SIDE % SIDE, b = n / (SIDE * SIDE);
        cube[n][0] = 1965 * r + 6 * g, cube[n][1] = 1965 * g, cube[n][2] = 1900 * b + 58 * r;
    }
    for (int n = 0; n < LONG; n++)
        for (int c = 0; c < 3; c++) line[n][c] = 63 * n;
    for (int c = 0; c < 3; c++)
        for (int n = 0; n < 1024; n++) on_line[c][n] = spot(n, c, LONG), on_cube[c][n] = spot(n, c, SIDE);
    fill(old, 1, smooth);
    fill(incoming, 77, smooth);
    measure("copy", copy);
    measure("cut", cut);
    measure("dissolve", dissolve);
    measure("1D", look_1d);
    measure("3D", look_3d);
    measure("counts", counts);
    measure("boxes", boxes);
}
