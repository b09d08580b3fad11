/* Megapixels a second of HostDecoder and Painter, against a decoder in C and memcpy, in one run.
 *
 * A screen of 1920 by 1080 as one rectangle: in Raw, random pixels; in Hextile, a page of text of two colours, a
 * desktop of letters in several inks, and a photo, of which most tiles come as Raw; in RRE, the text and the desktop.
 * Then a page that scrolls: a CopyRect of all rows but the first 16 to the top, and 16 rows of random pixels in Raw
 * below. It comes in pieces. Both sides draw each byte on the screen as it comes. At an update's end ours makes the
 * patch of the touched tiles. So that reading is timed alone, an update has the rectangle once, and nine times, and an
 * eighth of what the latter takes longer counts, on both sides (of the page that scrolls 21 times, and a twentieth).
 * After that a whole update is timed with its patch, for which the decoder in C copies each tile of the screen into
 * new memory. All are timed in turn, many rounds, and the best of each counts. */
#include <malloc.h>
#include <stdbool.h>
#include <stdint.h>
#include <stdio.h>
#include <stdlib.h>
#include <string.h>
#include <time.h>

/* The proved decoder and painter, of out/libc_trial.a. A slice is a pointer and a length. */
bool bench_host_message(uint32_t width, uint32_t height, const uint8_t *message, size_t length, uint32_t step, uint32_t times,
                        uint32_t *shown, size_t count);

enum { W = 1920, H = 1080, STRIPE = 16, UPDATE_HEAD = 4, RECT_HEAD = 12, TIMES = 8, SCROLLS = 20 };

static uint32_t screen[W * H];

/* ---- the decoder in C: bytes come from pieces of one buffer, so a number of them is asked for at a time */

typedef struct {
    const uint8_t *bytes;
    size_t step, at, end;
    uint8_t part[16];
} Source;

/* The next n bytes (16 at most), in place where the piece has them. */
static inline const uint8_t *next(Source *s, size_t n) {
    size_t left = s->step - s->at % s->step;
    const uint8_t *p = s->bytes + s->at;
    s->at += n;
    if (n <= left) return p;
    memcpy(s->part, p, n);
    return s->part;
}

static inline uint32_t pixel(const uint8_t *p) {
    uint32_t v;
    memcpy(&v, p, 4);
    return v & 0xFFFFFF;
}

/* The pixels from number k on, to the screen's end. */
__attribute__((noinline)) static void plain_raw(Source *s, size_t k) {
    while (k < W * H) {
        size_t here = (s->step - s->at % s->step) / 4;
        if (here > W * H - k) here = W * H - k;
        const uint8_t *p = s->bytes + s->at;
        for (size_t i = 0; i < here; i++) screen[k + i] = pixel(p + 4 * i);
        s->at += 4 * here;
        k += here;
        if (k < W * H) screen[k++] = pixel(next(s, 4));
    }
}

static inline void fill(int x, int y, int w, int h, uint32_t value) {
    for (int j = y; j < y + h; j++)
        for (int i = x; i < x + w; i++) screen[j * W + i] = value;
}

__attribute__((noinline)) static void plain_hextile(Source *s) {
    uint32_t background = 0, foreground = 0;
    for (int y = 0; y < H; y += 16)
        for (int x = 0; x < W; x += 16) {
            int w = W - x < 16 ? W - x : 16, h = H - y < 16 ? H - y : 16, mask = *next(s, 1);
            if (mask & 1) {
                for (int j = 0; j < h; j++)
                    for (int i = 0; i < w; i++) screen[(y + j) * W + x + i] = pixel(next(s, 4));
                continue;
            }
            if (mask & 2) background = pixel(next(s, 4));
            if (mask & 4) foreground = pixel(next(s, 4));
            fill(x, y, w, h, background);
            int count = mask & 8 ? *next(s, 1) : 0;
            for (int k = 0; k < count; k++) {
                uint32_t value = mask & 16 ? pixel(next(s, 4)) : foreground;
                const uint8_t *p = next(s, 2);
                fill(x + (p[0] >> 4), y + (p[0] & 15), (p[1] >> 4) + 1, (p[1] & 15) + 1, value);
            }
        }
}

__attribute__((noinline)) static void plain_rre(Source *s) {
    const uint8_t *head = next(s, 4);
    uint32_t count = (uint32_t)head[0] << 24 | head[1] << 16 | head[2] << 8 | head[3];
    fill(0, 0, W, H, pixel(next(s, 4)));
    for (; count; count--) {
        const uint8_t *p = next(s, 12);
        fill(p[4] << 8 | p[5], p[6] << 8 | p[7], p[8] << 8 | p[9], p[10] << 8 | p[11], pixel(p));
    }
}

/* The page goes up by a stripe, row by row as in a CopyRect of any width, and Raw comes in below. */
static void plain_scroll(Source *s) {
    const uint8_t *from = next(s, 4);
    int up = from[2] << 8 | from[3];
    for (int y = 0; y < H - STRIPE; y++) memmove(screen + y * W, screen + (y + up) * W, 4 * W);
    next(s, RECT_HEAD);
    plain_raw(s, W * (H - STRIPE));
}

/* The colours of all tiles, one tile after the other, in new memory. */
__attribute__((noinline)) static uint32_t *plain_patch(void) {
    uint32_t *patch = malloc(sizeof screen), *at = patch;
    for (int y = 0; y < H; y += 16)
        for (int x = 0; x < W; x += 16)
            for (int j = y; j < H && j < y + 16; j++, at += 16) memcpy(at, screen + j * W + x, 64);
    return patch;
}

enum Kind { RAW, HEXTILE, RRE, SCROLL };

enum Picture { NOISE, TEXT, DESKTOP, PHOTO };

static const struct {
    const char *name;
    enum Kind kind;
    enum Picture picture;
} messages[] = {
    {"Raw, noise", RAW, NOISE},         {"Hextile, text", HEXTILE, TEXT}, {"Hextile, desktop", HEXTILE, DESKTOP},
    {"Hextile, photo", HEXTILE, PHOTO}, {"RRE, text", RRE, TEXT},         {"RRE, desktop", RRE, DESKTOP},
    {"CopyRect, Raw", SCROLL, NOISE},
};

static void plain_rectangle(enum Kind kind, Source *s) {
    next(s, RECT_HEAD);
    if (kind == RAW) plain_raw(s, 0);
    if (kind == HEXTILE) plain_hextile(s);
    if (kind == RRE) plain_rre(s);
    if (kind == SCROLL) plain_scroll(s);
}

/* ---- the messages */

static uint32_t seed = 1;

static uint32_t random_byte(void) {
    seed = seed * 1664525u + 1013904223u;
    return seed >> 24;
}

/* Of a rectangle as wide as the screen, from row y on. */
static size_t put_rectangle_head(uint8_t *out, int y, int h, int encoding) {
    const uint8_t head[] = {0, 0, y >> 8, y & 255, W >> 8, W & 255, h >> 8, h & 255, 0, 0, 0, encoding};
    memcpy(out, head, sizeof head);
    return sizeof head;
}

static size_t put_update_head(uint8_t *out, int count) {
    const uint8_t head[] = {0, 0, 0, count};
    memcpy(out, head, sizeof head);
    return sizeof head;
}

static size_t put_noise(uint8_t *out, size_t bytes) {
    for (size_t k = 0; k < bytes; k++) out[k] = random_byte();
    return bytes;
}

static size_t put_pixel(uint8_t *out, uint32_t value) {
    memcpy(out, &value, 4);
    return 4;
}

/* White, with cells of 8 by 16 of which four fifths hold a black glyph of 5 by 9 random dots. */
static void draw_text(uint32_t *page) {
    for (size_t k = 0; k < W * H; k++) page[k] = 0xFFFFFF;
    for (int y = 0; y + 16 <= H; y += 16)
        for (int x = 0; x < W; x += 8) {
            if (random_byte() < 51) continue;
            for (int j = 3; j < 12; j++)
                for (int i = 1; i < 6; i++)
                    if (random_byte() < 100) page[(y + j) * W + x + i] = 0;
        }
}

/* Letters of dots, most in one ink, some in others. */
static void draw_desktop(uint32_t *page) {
    for (size_t k = 0; k < W * H; k++) page[k] = 0xF0F0F0;
    for (int y = 0; y + 16 <= H; y += 16)
        for (int x = 0; x < W; x += 8) {
            if (random_byte() < 64) continue;
            uint32_t ink = random_byte() < 235 ? 0x202020 : random_byte() << 16 | random_byte() << 8 | random_byte();
            for (int j = 3; j < 13; j++)
                for (int i = 1; i < 7; i++)
                    if (random_byte() < 85) page[(y + j) * W + x + i] = ink;
        }
}

static void draw_photo(uint32_t *page) {
    for (int y = 0; y < H; y++)
        for (int x = 0; x < W; x++)
            page[y * W + x] = ((x / 3 + random_byte() % 3) & 255) << 16 | ((y / 2 + random_byte() % 3) & 255) << 8 | (((x + y) / 4 + random_byte() % 3) & 255);
}

static void draw(enum Picture picture, uint32_t *page) {
    if (picture == TEXT) draw_text(page);
    if (picture == DESKTOP) draw_desktop(page);
    if (picture == PHOTO) draw_photo(page);
}

/* Black on white: a background and a foreground that all tiles share. */
static size_t put_two_colours(uint8_t *out, const uint32_t *page) {
    size_t n = 0;
    bool first = true;
    for (int y = 0; y < H; y += 16)
        for (int x = 0; x < W; x += 16) {
            int w = W - x < 16 ? W - x : 16, h = H - y < 16 ? H - y : 16, runs = 0;
            size_t mask = n++;
            out[mask] = first ? 6 : 0;
            if (first) n += put_pixel(out + n, 0xFFFFFF), n += put_pixel(out + n, 0);
            first = false;
            size_t count = n++;
            for (int j = 0; j < h; j++)
                for (int i = 0; i < w; i++) {
                    if (page[(y + j) * W + x + i]) continue;
                    int len = 1;
                    while (i + len < w && !page[(y + j) * W + x + i + len]) len++;
                    out[n++] = i << 4 | j;
                    out[n++] = (len - 1) << 4;
                    runs++;
                    i += len - 1;
                }
            out[count] = runs;
            if (runs) out[mask] |= 8;
            else n--;
        }
    return n;
}

/* The length of the run of one value that begins at x, y, as far as the column `end`. */
static int run_of(const uint32_t *page, int x, int y, int end) {
    int len = 1;
    while (x + len < end && page[y * W + x + len] == page[y * W + x]) len++;
    return len;
}

/* A tile over its first pixel's value, its runs with their values, or Raw where that is shorter: each tile says its
 * background. */
static size_t put_tile(uint8_t *out, const uint32_t *page, int left, int top, int w, int h) {
    uint32_t background = page[top * W + left];
    size_t n = 1 + put_pixel(out + 1, background), raw = 1 + 4 * (size_t)w * h;
    int runs = 0;
    size_t count = n++;
    for (int y = top; y < top + h; y++)
        for (int x = left, len; x < left + w; x += len) {
            len = run_of(page, x, y, left + w);
            if (page[y * W + x] == background) continue;
            if (n + 6 >= raw || runs == 255) {
                out[0] = 1;
                for (int j = 0; j < h; j++) memcpy(out + 1 + 4 * w * j, page + (top + j) * W + left, 4 * w);
                return raw;
            }
            n += put_pixel(out + n, page[y * W + x]);
            out[n++] = (x - left) << 4 | (y - top);
            out[n++] = (len - 1) << 4;
            runs++;
        }
    out[0] = runs ? 2 | 8 | 16 : 2;
    out[count] = runs;
    return runs ? n : count;
}

static size_t put_hextile(uint8_t *out, const uint32_t *page) {
    size_t n = 0;
    for (int y = 0; y < H; y += 16)
        for (int x = 0; x < W; x += 16) n += put_tile(out + n, page, x, y, W - x < 16 ? W - x : 16, H - y < 16 ? H - y : 16);
    return n;
}

static size_t put16(uint8_t *out, int value) {
    out[0] = value >> 8, out[1] = value;
    return 2;
}

static size_t put_rre(uint8_t *out, const uint32_t *page) {
    size_t n = 4 + put_pixel(out + 4, page[0]);
    uint32_t runs = 0;
    for (int y = 0; y < H; y++)
        for (int x = 0, len; x < W; x += len) {
            len = run_of(page, x, y, W);
            if (page[y * W + x] == page[0]) continue;
            n += put_pixel(out + n, page[y * W + x]);
            n += put16(out + n, x), n += put16(out + n, y), n += put16(out + n, len), n += put16(out + n, 1);
            runs++;
        }
    put16(out, runs >> 16), put16(out + 2, runs);
    return n;
}

static size_t put_rectangle(enum Kind kind, enum Picture picture, uint8_t *out, const uint32_t *page) {
    size_t n = 0;
    if (kind == RAW) {
        n += put_rectangle_head(out + n, 0, H, 0);
        n += put_noise(out + n, 4 * W * H);
    } else if (kind == HEXTILE) {
        n += put_rectangle_head(out + n, 0, H, 5);
        n += picture == TEXT ? put_two_colours(out + n, page) : put_hextile(out + n, page);
    } else if (kind == RRE) {
        n += put_rectangle_head(out + n, 0, H, 2);
        n += put_rre(out + n, page);
    } else {
        const uint8_t from[] = {0, 0, 0, STRIPE};
        n += put_rectangle_head(out + n, 0, H - STRIPE, 1);
        memcpy(out + n, from, sizeof from);
        n += sizeof from;
        n += put_rectangle_head(out + n, H - STRIPE, STRIPE, 0);
        n += put_noise(out + n, 4 * W * STRIPE);
    }
    return n;
}

/* An update that has the rectangle so many times. */
typedef struct {
    uint8_t *bytes;
    size_t length;
    int times;
} Update;

static Update repeated(enum Kind kind, const uint8_t *rectangle, size_t length, int times) {
    Update update = {malloc(UPDATE_HEAD + times * length), UPDATE_HEAD + times * length, times};
    put_update_head(update.bytes, kind == SCROLL ? 2 * times : times);
    for (int k = 0; k < times; k++) memcpy(update.bytes + UPDATE_HEAD + k * length, rectangle, length);
    return update;
}

static void plain_update(enum Kind kind, const Update *update, uint32_t step) {
    Source source = {update->bytes, step, UPDATE_HEAD, update->length};
    for (int k = 0; k < update->times; k++) plain_rectangle(kind, &source);
}

/* ---- the clock: processor time, since other work shares the machine */

static double now(void) {
    struct timespec t;
    clock_gettime(CLOCK_PROCESS_CPUTIME_ID, &t);
    return t.tv_sec + 1e-9 * t.tv_nsec;
}

static void keep_best(double *best, double start) {
    double took = now() - start;
    if (took < *best) *best = took;
}

static uint32_t ours[W * H];

/* What so many updates more take, by the best of many rounds. */
typedef struct {
    double few, many;
    int more;
} Best;

static double each(const Best *best) { return (best->many - best->few) / best->more; }

static void print_line(const char *name, uint32_t step, double mine, double in_c, double copied) {
    double pixels = W * H / 1e6;
    printf("| %s | %u | %.0f | %.0f | %.2f | %.0f | %.2f |\n", name, step, pixels / mine, pixels / in_c, in_c / mine, pixels / copied, copied / mine);
}

static void read_ours(double *best, const Update *update, uint32_t step, int times) {
    double start = now();
    if (!bench_host_message(W, H, update->bytes, update->length, step, times, ours, W * H)) fputs("refused\n", stderr), exit(1);
    keep_best(best, start);
}

static void read_in_c(double *best, enum Kind kind, const Update *update, uint32_t step) {
    double start = now();
    plain_update(kind, update, step);
    keep_best(best, start);
}

static void copy_screen(double *best) {
    static uint32_t copy[W * H];
    double start = now();
    memcpy(copy, ours, sizeof copy);
    __asm__ volatile("" : : "r"(copy) : "memory");
    keep_best(best, start);
}

/* The rectangle alone, without the patch. */
static void measure_reading(const char *name, enum Kind kind, const Update *once, const Update *more, uint32_t step, int rounds) {
    Best mine = {1e9, 1e9, more->times - 1}, in_c = mine;
    double copied = 1e9;
    for (int round = 0; round < rounds; round++) {
        memset(screen, 0, sizeof screen);
        read_in_c(&in_c.few, kind, once, step);
        read_ours(&mine.few, once, step, 1);
        if (memcmp(ours, screen, sizeof screen)) fputs("the screens differ\n", stderr), exit(1);
        read_in_c(&in_c.many, kind, more, step);
        read_ours(&mine.many, more, step, 1);
        copy_screen(&copied);
    }
    print_line(name, step, each(&mine), each(&in_c), copied);
}

/* Whole updates, each with its patch. */
static void measure_update(enum Kind kind, const Update *once, uint32_t step, int rounds) {
    Best mine = {1e9, 1e9, TIMES};
    double in_c = 1e9, copied = 1e9;
    for (int round = 0; round < rounds; round++) {
        read_ours(&mine.few, once, step, 1);
        read_ours(&mine.many, once, step, 1 + TIMES);
        double start = now();
        plain_update(kind, once, step);
        free(plain_patch());
        keep_best(&in_c, start);
        copy_screen(&copied);
    }
    print_line("Raw, noise, and its patch", step, each(&mine), in_c, copied);
}

int main(int argc, char **argv) {
    int rounds = argc > 1 ? atoi(argv[1]) : 30;
    mallopt(M_MMAP_THRESHOLD, 1 << 30);
    mallopt(M_TRIM_THRESHOLD, 1 << 30);
    static const uint32_t steps[] = {65536, 4096, 1460};
    static uint32_t page[W * H];
    uint8_t *rectangle = malloc(2 * RECT_HEAD + 13 * W * H);
    printf("| Update | piece | ours | plain C | ratio | memcpy | ratio |\n|---|---|---|---|---|---|---|\n");
    for (size_t m = 0; m < sizeof messages / sizeof *messages; m++) {
        enum Kind kind = messages[m].kind;
        if (argc > 2 && !strstr(messages[m].name, argv[2])) continue;
        draw(messages[m].picture, page);
        size_t length = put_rectangle(kind, messages[m].picture, rectangle, page);
        Update once = repeated(kind, rectangle, length, 1), more = repeated(kind, rectangle, length, 1 + (kind == SCROLL ? SCROLLS : TIMES));
        for (int k = 0; k < 3; k++) measure_reading(messages[m].name, kind, &once, &more, steps[k], rounds);
        if (kind == RAW) measure_update(kind, &once, steps[0], rounds);
        free(once.bytes);
        free(more.bytes);
    }
    return 0;
}
