/* Milliseconds of one answer of 1920 by 1080, cut and written rectangle by rectangle, against the same in plain C and
 * memcpy, in one run.
 *
 * On both sides the screen is copied once, as a cut does, and then each row of tiles is written into the same piece: 12
 * bytes of head, and Raw, or Hextile where that has fewer bytes. In C each pixel is tinted by a division a component.
 * The bytes are compared. All are timed in turn, many rounds, by the processor's time of the thread, and the best of
 * each counts; then the same without copying the screen anew. */
#include <stdbool.h>
#include <stdint.h>
#include <stdio.h>
#include <stdlib.h>
#include <string.h>
#include <time.h>

/* The proved encoder, of out/libc_trial.a. A slice is a pointer and a length. */
uint64_t bench_answers(const uint8_t *format, uint32_t kind, bool joined, uint32_t width, uint32_t height, const uint32_t *colours,
                       size_t count, bool all, bool copies, uint32_t times, uint8_t *sent, size_t room);

enum { W = 1920, H = 1080, COUNT = W * H, RAW = 0, HEXTILE = 5, TIMES = 8 };

static uint32_t screen[COUNT], cut[COUNT], values[16 * W];
static uint8_t piece[12 + 64 * W], ours[5 * COUNT], theirs[5 * COUNT];

static const struct {
    const char *name;
    int size;
    uint8_t bytes[16];
} FORMATS[] = {
    {"32 bits, the host's", 4, {32, 24, 0, 1, 0, 255, 0, 255, 0, 255, 16, 8, 0}},
    {"16 bits, 5-6-5", 2, {16, 16, 0, 1, 0, 31, 0, 63, 0, 31, 11, 5, 0}},
};

/* ---- pictures */

static uint32_t seed;

static uint32_t dice(void) {
    seed = seed * 1664525 + 1013904223;
    return seed >> 8;
}

static uint32_t photo(int x, int y) {
    uint32_t red = (x / 3 + dice() % 3) & 255, green = (y / 2 + dice() % 3) & 255;
    return red << 16 | green << 8 | (((x + y) / 4 + dice() % 3) & 255);
}

/* Lines of text in black on white, with blanks, and a margin to the right. */
static void draw_text(void) {
    static uint8_t glyphs[96][16];
    for (int g = 0; g < 96; g++)
        for (int y = 3; y <= 12; y++) glyphs[g][y] = dice() & dice() & 0x7E;
    for (int y = 0; y < H; y++)
        for (int x = 0; x < W; x++) {
            bool blank = (x / 8 + y / 16 * 7) % 5 == 0 || x > 1400;
            screen[y * W + x] = !blank && glyphs[(x / 8 * 31 + y / 16 * 17) % 96][y % 16] >> x % 8 & 1 ? 0 : 0xFFFFFF;
        }
}

/* Letters of dots, most in one ink, some in others. */
static void draw_desktop(void) {
    for (int k = 0; k < COUNT; k++) screen[k] = 0xF0F0F0;
    for (int cy = 0; cy < H / 16; cy++)
        for (int cx = 0; cx < W / 8; cx++) {
            if (dice() % 4 == 0) continue;
            uint32_t ink = dice() % 12 ? 0x202020 : dice() & 0xFFFFFF;
            for (int y = 3; y < 13; y++)
                for (int x = 1; x < 7; x++)
                    if (dice() % 3 == 0) screen[(cy * 16 + y) * W + cx * 8 + x] = ink;
        }
}

static void draw(int picture) {
    seed = 6143;
    if (picture == 1) return draw_text();
    if (picture == 2) return draw_desktop();
    for (int y = 0; y < H; y++)
        for (int x = 0; x < W; x++)
            screen[y * W + x] = picture == 0 ? (x < 400 ? 0x306090 : 0xD0D0D0) : picture == 3 ? dice() & 0xFFFFFF : photo(x, y);
}

static const char *PICTURES[] = {"flat", "text", "desktop", "noise", "photo"};

/* ---- the same in plain C */

static inline uint32_t value_in(uint32_t colour, int size) {
    if (size == 4) return colour & 0xFFFFFF;
    uint32_t r = colour >> 16 & 255, g = colour >> 8 & 255, b = colour & 255;
    return (r * 31 + 127) / 255 << 11 | (g * 63 + 127) / 255 << 5 | (b * 31 + 127) / 255;
}

static inline uint8_t *put_pixel(uint8_t *out, uint32_t value, int size) {
    memcpy(out, &value, size);
    return out + size;
}

typedef struct {
    uint32_t value;
    uint8_t place, length;
} Run;

static inline uint8_t *raw_tile(uint8_t *at, const uint32_t *tile, int w, int h, int size) {
    *at++ = 1;
    for (int y = 0; y < h; y++)
        for (int x = 0; x < w; x++) at = put_pixel(at, tile[y * W + x], size);
    return at;
}

/* The bytes of a row of tiles in Hextile, and 0 where they are no fewer than the limit. */
static inline size_t write_hextile(int height, int size, uint8_t *out, size_t limit) {
    uint8_t *at = out;
    uint32_t background = 0, foreground = 0;
    bool has_background = false, has_foreground = false;
    Run runs[256];
    for (int left = 0; left < W; left += 16) {
        int w = W - left < 16 ? W - left : 16, count = 0;
        const uint32_t *tile = values + left;
        bool one = true;
        for (int y = 0; y < height; y++) {
            const uint32_t *row = tile + y * W;
            for (int x = 0, end; x < w; x = end) {
                for (end = x + 1; end < w && row[end] == row[x]; end++) {}
                if (row[x] == tile[0]) continue;
                runs[count] = (Run){row[x], x * 16 + y, (end - x - 1) * 16};
                one &= row[x] == runs[0].value;
                count++;
            }
        }
        bool same_background = has_background && background == tile[0];
        bool same_foreground = count && one && has_foreground && foreground == runs[0].value;
        size_t bytes = 1 + (same_background ? 0 : size), raw = 1 + (size_t)size * w * height;
        if (count) bytes += 1 + (one ? 2 * count + (same_foreground ? 0 : size) : (2 + size) * count);
        if ((size_t)(at - out) + (bytes < raw ? bytes : raw) >= limit) return 0;
        if (raw <= bytes) {
            at = raw_tile(at, tile, w, height, size);
            has_background = has_foreground = false;
            continue;
        }
        *at++ = (same_background ? 0 : 2) | (count ? 8 : 0) | (count && one && !same_foreground ? 4 : 0) | (count && !one ? 16 : 0);
        if (!same_background) at = put_pixel(at, tile[0], size);
        if (count && one && !same_foreground) at = put_pixel(at, runs[0].value, size);
        if (count) *at++ = count;
        for (int k = 0; k < count; k++) {
            if (!one) at = put_pixel(at, runs[k].value, size);
            *at++ = runs[k].place, *at++ = runs[k].length;
        }
        has_background = true, background = tile[0];
        has_foreground = count && one;
        if (has_foreground) foreground = runs[0].value;
    }
    return at - out;
}

static inline uint8_t *put16(uint8_t *out, uint32_t v) {
    out[0] = v >> 8, out[1] = v;
    return out + 2;
}

/* A row of tiles in the piece: how many bytes it has. */
static inline size_t write_row(int top, int size, int kind) {
    int height = H - top < 16 ? H - top : 16;
    const uint32_t *colours = cut + top * W;
    size_t raw = (size_t)height * W * size, len = 0;
    if (kind == HEXTILE) {
        for (int k = 0; k < height * W; k++) values[k] = value_in(colours[k], size);
        len = write_hextile(height, size, piece + 12, raw);
    }
    if (!len) {
        kind = RAW, len = raw;
        uint8_t *at = piece + 12;
        for (int k = 0; k < height * W; k++) at = put_pixel(at, value_in(colours[k], size), size);
    }
    uint8_t *at = put16(put16(piece, 0), top);
    put16(put16(put16(put16(at, W), height), 0), kind);
    return 12 + len;
}

static inline size_t plain_answer(int size, int kind, bool copies, uint8_t *sent) {
    size_t total = 0;
    if (copies) memcpy(cut, screen, sizeof cut);
    for (int top = 0; top < H; top += 16) {
        size_t len = write_row(top, size, kind);
        if (sent) memcpy(sent + total, piece, len);
        total += len;
    }
    return total;
}

__attribute__((noinline)) static size_t plain(int size, int kind, bool copies, uint8_t *sent) {
    return size == 4 ? plain_answer(4, kind, copies, sent) : plain_answer(2, kind, copies, sent);
}

/* ---- timing */

static double now(void) {
    struct timespec t;
    clock_gettime(CLOCK_THREAD_CPUTIME_ID, &t);
    return t.tv_sec * 1e3 + t.tv_nsec / 1e6;
}

static double least(double a, double b) { return b < a ? b : a; }

/* Ours so many times, and once more, in one call, which also takes the room: the best of many calls. What an answer
 * takes is told from the best of calls with few and with many answers; a difference of single calls would be as low as
 * noise makes it. */
typedef struct {
    double few, many;
    int times;
} Calls;

static double call(int f, int kind, bool joined, bool all, bool copies, int times) {
    double start = now();
    bench_answers(FORMATS[f].bytes, kind, joined, W, H, screen, COUNT, all, copies, times, ours, 0);
    return now() - start;
}

static void try_once(Calls *c, int f, int kind, bool joined, bool all, bool copies) {
    c->few = least(c->few, call(f, kind, joined, all, copies, 1));
    c->many = least(c->many, call(f, kind, joined, all, copies, 1 + c->times));
}

static double an_answer(const Calls *c) { return (c->many - c->few) / c->times; }

static double an_answer_in_c(int size, int kind, bool copies) {
    double start = now();
    plain(size, kind, copies, NULL);
    return now() - start;
}

static bool measure(int picture, int f, int kind, int rounds) {
    double in_c = 1e9, written_in_c = 1e9, copied = 1e9;
    Calls answers = {1e9, 1e9, TIMES}, written = {1e9, 1e9, TIMES};
    int size = FORMATS[f].size;
    draw(picture);
    size_t len = plain(size, kind, true, theirs);
    size_t found = bench_answers(FORMATS[f].bytes, kind, false, W, H, screen, COUNT, true, true, 0, ours, sizeof ours);
    if (found != len || memcmp(ours, theirs, len)) {
        printf("%s, %s: other bytes, %zu and in C %zu\n", PICTURES[picture], FORMATS[f].name, found, len);
        return false;
    }
    for (int k = 0; k < rounds; k++) {
        try_once(&answers, f, kind, false, true, true);
        try_once(&written, f, kind, false, true, false);
        in_c = least(in_c, an_answer_in_c(size, kind, true));
        written_in_c = least(written_in_c, an_answer_in_c(size, kind, false));
        double start = now();
        memcpy(cut, screen, sizeof cut);
        copied = least(copied, now() - start);
    }
    double mine = an_answer(&answers), writes = an_answer(&written);
    printf("| %s, %s, %s | %.2f | %.2f | %.2f | %.2f | %.2f | %.2f | %.2f | %.2f | %zu |\n", kind ? "Hextile" : "Raw", FORMATS[f].name, PICTURES[picture], mine,
           in_c, in_c / mine, copied, mine / copied, writes, written_in_c, written_in_c / writes, len);
    return true;
}

/* Hextile with joined runs, which plain C doesn't write, beside the runs of rows, without the cut. */
static void measure_joined(int picture, int f, int rounds) {
    Calls rows = {1e9, 1e9, TIMES}, joined = {1e9, 1e9, TIMES};
    draw(picture);
    size_t len = bench_answers(FORMATS[f].bytes, HEXTILE, false, W, H, screen, COUNT, true, true, 0, ours, 0);
    size_t found = bench_answers(FORMATS[f].bytes, HEXTILE, true, W, H, screen, COUNT, true, true, 0, ours, 0);
    for (int k = 0; k < rounds; k++) {
        try_once(&rows, f, HEXTILE, false, true, false);
        try_once(&joined, f, HEXTILE, true, true, false);
    }
    double old = an_answer(&rows), mine = an_answer(&joined);
    printf("| %s, %s | %.2f | %.2f | %.2f | %zu | %zu | %.2f |\n", FORMATS[f].name, PICTURES[picture], old, mine, mine / old, len, found, (double)found / len);
}

int main(int count, char **words) {
    int rounds = count > 1 ? atoi(words[1]) : 30;
    bool same = true;
    printf("| Answer | ours, ms | plain C | ratio | memcpy | times memcpy | without the cut | plain C | ratio | bytes |\n|---|---|---|---|---|---|---|---|---|---|\n");
    for (int f = 0; f < 2; f++) same &= measure(3, f, RAW, rounds);
    for (int f = 0; f < 2; f++)
        for (int picture = 0; picture < 5; picture++) same &= measure(picture, f, HEXTILE, rounds);
    Calls one = {1e9, 1e9, 5000};
    for (int k = 0; k < rounds; k++) try_once(&one, 0, RAW, false, false, false);
    printf("\nOne tile of 8,160 is due: counted and written in %.1f microseconds.\n", an_answer(&one) * 1e3);
    printf("\n| Hextile | rows, ms | joined, ms | times | rows, bytes | joined | times |\n|---|---|---|---|---|---|---|\n");
    for (int f = 0; f < 2; f++)
        for (int picture = 0; picture < 5; picture++) measure_joined(picture, f, rounds);
    return !same;
}
