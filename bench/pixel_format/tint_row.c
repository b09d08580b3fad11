/* Pixels per second of Format::tint_row against loops in C, in one run.
 *
 * Two loops in C for each format: the plain one (a division by 255 a component) and one over three tables of 256,
 * made before the clock starts; for the host's own format a masked copy, and memcpy. All are timed in turn, many
 * rounds, and the best round of each counts. */
#include <stdbool.h>
#include <stdint.h>
#include <stdio.h>
#include <stdlib.h>
#include <string.h>
#include <time.h>

/* The proved kernel, of out/libc_trial.a. A slice is a pointer and a length. */
bool bench_tint_rows(const uint8_t *format, const uint32_t *colours, size_t count, uint32_t width, uint8_t *out, size_t size);

typedef struct {
    const char *name;
    uint8_t bytes[16];
} Case;

static const Case CASES[] = {
    {"32 bits, the host's", {32, 24, 0, 1, 0, 255, 0, 255, 0, 255, 16, 8, 0}},
    {"32 bits, red lowest", {32, 24, 0, 1, 0, 255, 0, 255, 0, 255, 0, 8, 16}},
    {"32 bits, big-endian", {32, 24, 1, 1, 0, 255, 0, 255, 0, 255, 16, 8, 0}},
    {"16 bits, 5-6-5", {16, 16, 0, 1, 0, 31, 0, 63, 0, 31, 11, 5, 0}},
    {"16 bits, big-endian", {16, 16, 1, 1, 0, 31, 0, 63, 0, 31, 11, 5, 0}},
    {"8 bits, 3-3-2", {8, 8, 0, 1, 0, 7, 0, 7, 0, 3, 0, 3, 6}},
    {"32 bits, 10 a channel", {32, 30, 0, 1, 3, 255, 3, 255, 3, 255, 20, 10, 0}},
};

static uint32_t placed(const uint8_t *f, int i, uint32_t component) {
    uint32_t max = f[4 + 2 * i] * 256u + f[5 + 2 * i];
    return (component * max + 127) / 255 << f[10 + i];
}

static void put(uint8_t *out, uint32_t value, int bits, bool big) {
    if (bits == 8) {
        *out = value;
    } else if (bits == 16) {
        uint16_t v = big ? __builtin_bswap16(value) : value;
        memcpy(out, &v, 2);
    } else {
        uint32_t v = big ? __builtin_bswap32(value) : value;
        memcpy(out, &v, 4);
    }
}

#define LOOP(name, bits, big, value)                                                                                   \
    __attribute__((noinline)) static void name(const uint8_t *f, const uint32_t *restrict colours, size_t count,       \
                                               uint8_t *restrict out) {                                                \
        for (size_t i = 0; i < count; i++) {                                                                           \
            uint32_t c = colours[i];                                                                                   \
            put(out + i * (bits / 8), value, bits, big);                                                               \
        }                                                                                                              \
    }

static uint32_t table[3][256];
static uint32_t max_of[3], shift_of[3];

#define PLAIN                                                                                                          \
    (((c >> 16 & 255) * max_of[0] + 127) / 255 << shift_of[0]) + (((c >> 8 & 255) * max_of[1] + 127) / 255             \
                                                                  << shift_of[1]) +                                    \
        (((c & 255) * max_of[2] + 127) / 255 << shift_of[2])
#define TABLES table[0][c >> 16 & 255] | table[1][c >> 8 & 255] | table[2][c & 255]

LOOP(plain_8, 8, false, PLAIN)
LOOP(plain_16, 16, false, PLAIN)
LOOP(plain_16_big, 16, true, PLAIN)
LOOP(plain_32, 32, false, PLAIN)
LOOP(plain_32_big, 32, true, PLAIN)
LOOP(tables_8, 8, false, TABLES)
LOOP(tables_16, 16, false, TABLES)
LOOP(tables_16_big, 16, true, TABLES)
LOOP(tables_32, 32, false, TABLES)
LOOP(tables_32_big, 32, true, TABLES)

__attribute__((noinline)) static void masked_32(const uint8_t *f, const uint32_t *restrict colours, size_t count,
                                                uint8_t *restrict out) {
    for (size_t i = 0; i < count; i++) put(out + 4 * i, colours[i] & 0xFFFFFF, 32, false);
}

__attribute__((noinline)) static void copy_32(const uint8_t *f, const uint32_t *restrict colours, size_t count,
                                              uint8_t *restrict out) {
    memcpy(out, colours, 4 * count);
}

typedef void (*Loop)(const uint8_t *, const uint32_t *, size_t, uint8_t *);

static double now(void) {
    struct timespec t;
    clock_gettime(CLOCK_MONOTONIC, &t);
    return t.tv_sec + 1e-9 * t.tv_nsec;
}

int main(int argc, char **argv) {
    size_t width = argc > 1 ? strtoul(argv[1], 0, 10) : 1920;
    size_t rows = width < 1920 ? 1920 / width : 1, count = rows * width;
    int rounds = 20000;
    uint32_t *colours = malloc(4 * count);
    uint8_t *ours = malloc(4 * count), *theirs = malloc(4 * count);
    uint32_t seed = 1;
    for (size_t i = 0; i < count; i++) {
        seed = seed * 1664525u + 1013904223u;
        colours[i] = seed >> 8;
    }
    printf("rows of %zu pixels; millions of pixels a second, and ours over theirs\n", width);
    printf("%-24s %8s %8s %6s %8s %6s\n", "format", "ours", "plain C", "ratio", "tables", "ratio");
    for (size_t k = 0; k < sizeof CASES / sizeof *CASES; k++) {
        const uint8_t *f = CASES[k].bytes;
        int bits = f[0], bytes = bits / 8;
        bool big = f[2], host = k == 0;
        for (int i = 0; i < 3; i++) {
            max_of[i] = f[4 + 2 * i] * 256u + f[5 + 2 * i];
            shift_of[i] = f[10 + i];
            for (int c = 0; c < 256; c++) table[i][c] = placed(f, i, c);
        }
        Loop loops[2];
        loops[0] = bits == 8 ? plain_8 : bits == 16 ? (big ? plain_16_big : plain_16) : (big ? plain_32_big : plain_32);
        loops[1] = bits == 8 ? tables_8 : bits == 16 ? (big ? tables_16_big : tables_16) : (big ? tables_32_big : tables_32);
        if (host) loops[0] = masked_32, loops[1] = copy_32;
        double best[3] = {1e9, 1e9, 1e9};
        for (int round = 0; round < rounds; round++) {
            double start = now();
            if (!bench_tint_rows(f, colours, count, width, ours, bytes * count)) return fputs("refused\n", stderr), 1;
            double took = now() - start;
            if (took < best[0]) best[0] = took;
            for (int i = 0; i < 2; i++) {
                start = now();
                for (size_t r = 0; r < rows; r++) loops[i](f, colours + r * width, width, theirs + r * width * bytes);
                took = now() - start;
                if (took < best[1 + i]) best[1 + i] = took;
                if (memcmp(ours, theirs, bytes * count)) return fputs("the loops differ\n", stderr), 1;
            }
        }
        double pixels = count / 1e6;
        printf("%-24s %8.0f %8.0f %6.2f %8.0f %6.2f%s\n", CASES[k].name, pixels / best[0], pixels / best[1],
               best[1] / best[0], pixels / best[2], best[2] / best[0], host ? "  (a masked copy; memcpy)" : "");
    }
    return 0;
}
