/* RRE and Hextile in plain C, from RFC 6143 (7.7.3, 7.7.4), with the spelling that docs/PROTOCOL.md tells for writing.
 *
 * usage: codecs FILE ROUNDS: writes rectangles of 1920 by 1080 into FILE, as crates/codec_trial reads them, and prints
 * for each a name, the microseconds in which it is read and written, the best of ROUNDS, and the bytes written,
 * 0 where Raw is as short.
 * codecs FILE PICTURE rows: writes one picture of the five (0 to 4) into FILE, in the host's format and cut into the
 * rectangles that serve writes, a row of tiles each, for codec_trial FILE ROUNDS kept. */
#include <stdint.h>
#include <stdio.h>
#include <stdlib.h>
#include <string.h>
#include <time.h>

enum { WIDTH = 1920, HEIGHT = 1080, COUNT = WIDTH * HEIGHT };
enum { RRE = 2, HEXTILE = 5 };

typedef struct {
    const char *name;
    int size; /* bytes of a pixel, least significant first */
    uint8_t bytes[16];
} Format;

static const Format FORMATS[] = {
    {"32 bits", 4, {32, 24, 0, 1, 0, 255, 0, 255, 0, 255, 16, 8, 0}},
    {"16 bits", 2, {16, 16, 0, 1, 0, 31, 0, 63, 0, 31, 11, 5, 0}},
};

static uint32_t value_in(const Format *f, uint32_t colour) {
    if (f->size == 4) return colour;
    uint32_t r = colour >> 16, g = colour >> 8 & 255, b = colour & 255;
    return (r * 31 + 127) / 255 << 11 | (g * 63 + 127) / 255 << 5 | (b * 31 + 127) / 255;
}

static inline uint8_t *put_pixel(uint8_t *out, uint32_t value, int size) {
    memcpy(out, &value, size);
    return out + size;
}

static inline uint32_t get_pixel(const uint8_t *in, int size) {
    uint32_t value = 0;
    memcpy(&value, in, size);
    return value;
}

static inline uint8_t *put16(uint8_t *out, uint32_t v) {
    out[0] = v >> 8, out[1] = v;
    return out + 2;
}

static inline uint32_t get16(const uint8_t *in) { return in[0] << 8 | in[1]; }
static inline uint32_t get32(const uint8_t *in) { return get16(in) << 16 | get16(in + 2); }

/* ---- reading: the values of the rectangle; 0 where the data is bad */

static inline void fill(uint32_t *at, int w, int h, uint32_t value) {
    for (int y = 0; y < h; y++, at += WIDTH)
        for (int x = 0; x < w; x++) at[x] = value;
}

static inline int read_rre(const uint8_t *in, int size, uint32_t *values) {
    uint32_t count = get32(in);
    fill(values, WIDTH, HEIGHT, get_pixel(in + 4, size));
    in += 4 + size;
    for (; count; count--, in += size + 8) {
        const uint8_t *place = in + size;
        uint32_t x = get16(place), y = get16(place + 2), w = get16(place + 4), h = get16(place + 6);
        if (x + w > WIDTH || y + h > HEIGHT) return 0;
        fill(values + y * WIDTH + x, w, h, get_pixel(in, size));
    }
    return 1;
}

static inline int read_hextile(const uint8_t *in, int size, uint32_t *values) {
    uint32_t background = 0, foreground = 0;
    for (int top = 0; top < HEIGHT; top += 16)
        for (int left = 0; left < WIDTH; left += 16) {
            int w = WIDTH - left < 16 ? WIDTH - left : 16, h = HEIGHT - top < 16 ? HEIGHT - top : 16;
            uint32_t *tile = values + top * WIDTH + left;
            int mask = *in++;
            if (mask & 1) {
                for (int y = 0; y < h; y++)
                    for (int x = 0; x < w; x++, in += size) tile[y * WIDTH + x] = get_pixel(in, size);
                continue;
            }
            if (mask & 2) background = get_pixel(in, size), in += size;
            if (mask & 4) foreground = get_pixel(in, size), in += size;
            fill(tile, w, h, background);
            for (int count = mask & 8 ? *in++ : 0; count; count--) {
                uint32_t value = foreground;
                if (mask & 16) value = get_pixel(in, size), in += size;
                int x = in[0] >> 4, y = in[0] & 15, sw = (in[1] >> 4) + 1, sh = (in[1] & 15) + 1;
                in += 2;
                if (x + sw > w || y + sh > h) return 0;
                fill(tile + y * WIDTH + x, sw, sh, value);
            }
        }
    return 1;
}

/* ---- writing: how many bytes, 0 where Raw has no more than `limit` allows */

static inline size_t write_rre(const uint32_t *values, int size, uint8_t *out, size_t limit) {
    uint32_t background = values[0], count = 0;
    uint8_t *at = put_pixel(out + 4, background, size);
    for (int y = 0; y < HEIGHT; y++) {
        const uint32_t *row = values + y * WIDTH;
        for (int x = 0; x < WIDTH;) {
            uint32_t value = row[x];
            int end = x + 1;
            while (end < WIDTH && row[end] == value) end++;
            if (value != background) {
                if ((size_t)(at - out) + size + 8 >= limit) return 0;
                at = put_pixel(at, value, size);
                at = put16(put16(put16(put16(at, x), y), end - x), 1);
                count++;
            }
            x = end;
        }
    }
    put16(put16(out, count >> 16), count);
    return at - out;
}

typedef struct {
    uint32_t value;
    uint8_t place, length;
} Run;

static inline uint8_t *raw_tile(uint8_t *at, const uint32_t *tile, int w, int h, int size) {
    *at++ = 1;
    for (int y = 0; y < h; y++)
        for (int x = 0; x < w; x++) at = put_pixel(at, tile[y * WIDTH + x], size);
    return at;
}

static inline size_t write_hextile(const uint32_t *values, int size, uint8_t *out, size_t limit) {
    uint8_t *at = out;
    uint32_t background = 0, foreground = 0;
    int has_background = 0, has_foreground = 0;
    Run runs[256];
    for (int top = 0; top < HEIGHT; top += 16)
        for (int left = 0; left < WIDTH; left += 16) {
            int w = WIDTH - left < 16 ? WIDTH - left : 16, h = HEIGHT - top < 16 ? HEIGHT - top : 16;
            const uint32_t *tile = values + top * WIDTH + left;
            int count = 0, one = 1;
            for (int y = 0; y < h; y++) {
                const uint32_t *row = tile + y * WIDTH;
                for (int x = 0; x < w;) {
                    int end = x + 1;
                    while (end < w && row[end] == row[x]) end++;
                    if (row[x] != tile[0]) {
                        runs[count] = (Run){row[x], x * 16 + y, (end - x - 1) * 16};
                        one &= row[x] == runs[0].value;
                        count++;
                    }
                    x = end;
                }
            }
            int same_background = has_background && background == tile[0];
            int same_foreground = count && one && has_foreground && foreground == runs[0].value;
            size_t bytes = 1 + (same_background ? 0 : size);
            if (count) bytes += 1 + (one ? 2 * count + (same_foreground ? 0 : size) : (2 + size) * count);
            size_t raw = 1 + (size_t)size * w * h;
            if ((size_t)(at - out) + (bytes < raw ? bytes : raw) >= limit) return 0;
            if (raw <= bytes) {
                at = raw_tile(at, tile, w, h, size);
                has_background = has_foreground = 0;
                continue;
            }
            *at++ = (same_background ? 0 : 2) | (count ? 8 : 0) | (count && one && !same_foreground ? 4 : 0) | (count && !one ? 16 : 0);
            if (!same_background) at = put_pixel(at, tile[0], size);
            if (count && one && !same_foreground) at = put_pixel(at, runs[0].value, size);
            if (count) *at++ = count;
            for (int k = 0; k < count; k++) {
                if (!one) at = put_pixel(at, runs[k].value, size);
                *at++ = runs[k].place, *at++ = runs[k].length;
            }
            has_background = 1, background = tile[0];
            has_foreground = count && one;
            if (has_foreground) foreground = runs[0].value;
        }
    return at - out;
}

/* One function for each width, so that each loop knows it. */
__attribute__((noinline)) static int reads(int encoding, int size, const uint8_t *in, uint32_t *values) {
    if (encoding == RRE) return size == 4 ? read_rre(in, 4, values) : read_rre(in, 2, values);
    return size == 4 ? read_hextile(in, 4, values) : read_hextile(in, 2, values);
}

__attribute__((noinline)) static size_t writes(int encoding, int size, const uint32_t *values, uint8_t *out, size_t limit) {
    if (encoding == RRE) return size == 4 ? write_rre(values, 4, out, limit) : write_rre(values, 2, out, limit);
    return size == 4 ? write_hextile(values, 4, out, limit) : write_hextile(values, 2, out, limit);
}

/* ---- pictures */

static uint32_t state = 6143;

static uint32_t next_random(void) {
    state = state * 1664525u + 1013904223u;
    return state >> 8;
}

/* Letters of dots, most in one ink, some in others. */
static void draw_desktop(uint32_t *colours) {
    for (int k = 0; k < COUNT; k++) colours[k] = 0xF0F0F0;
    for (int top = 0; top + 16 <= HEIGHT; top += 16)
        for (int left = 0; left < WIDTH; left += 8) {
            if (next_random() % 4 == 0) continue;
            uint32_t ink = next_random() % 12 ? 0x202020 : next_random() & 0xFFFFFF;
            for (int y = 3; y < 13; y++)
                for (int x = 1; x < 7; x++)
                    if (next_random() % 3 == 0) colours[(top + y) * WIDTH + left + x] = ink;
        }
}

static uint32_t photo(int x, int y) {
    uint32_t red = (x / 3 + next_random() % 3) & 255, green = (y / 2 + next_random() % 3) & 255;
    return red << 16 | green << 8 | (((x + y) / 4 + next_random() % 3) & 255);
}

static void draw(uint32_t *colours, int picture) {
    if (picture == 3) return draw_desktop(colours);
    static uint8_t glyphs[96][16];
    for (int g = 0; g < 96; g++)
        for (int y = 0; y < 16; y++) glyphs[g][y] = y < 3 || y > 12 ? 0 : next_random() & next_random() & 0x7E;
    for (int y = 0; y < HEIGHT; y++)
        for (int x = 0; x < WIDTH; x++) {
            uint32_t value = x < 400 ? 0x306090 : 0xD0D0D0;
            if (picture == 1) {
                int glyph = (x / 8 * 31 + y / 16 * 17) % 96;
                int blank = (x / 8 + y / 16 * 7) % 5 == 0 || x > 1400;
                value = !blank && glyphs[glyph][y % 16] >> (x % 8) & 1 ? 0x000000 : 0xFFFFFF;
            }
            colours[y * WIDTH + x] = picture == 2 ? next_random() & 0xFFFFFF : picture == 4 ? photo(x, y) : value;
        }
}

static double micros(void) {
    struct timespec now;
    clock_gettime(CLOCK_MONOTONIC, &now);
    return now.tv_sec * 1e6 + now.tv_nsec / 1e3;
}

static void put_record(FILE *file, int encoding, const Format *f, const uint8_t *data, size_t count, const uint32_t *values) {
    uint8_t head[26] = {encoding};
    memcpy(head + 1, f->bytes, 16);
    put16(put16(head + 17, WIDTH), HEIGHT);
    put16(put16(head + 22, count >> 16), count);
    fwrite(head, 1, sizeof head, file);
    fwrite(data, 1, count, file);
    for (int i = 0; i < COUNT; i++) fwrite(values + i, f->size, 1, file);
}

static void put_rows_of_tiles(FILE *file, const uint32_t *colours) {
    for (int y = 0; y < HEIGHT; y += 16) {
        int high = HEIGHT - y < 16 ? HEIGHT - y : 16;
        uint8_t head[26] = {HEXTILE};
        memcpy(head + 1, FORMATS[0].bytes, 16);
        put16(put16(head + 17, WIDTH), high);
        fwrite(head, 1, sizeof head, file);
        fwrite(colours + y * WIDTH, 4, (size_t)high * WIDTH, file);
    }
}

int main(int argc, char **argv) {
    static const char *const PICTURES[] = {"flat", "text", "noise", "desktop", "photo"};
    int in_rows = argc == 4 && !strcmp(argv[3], "rows");
    if (argc != 3 && !in_rows) return 2;
    FILE *file = fopen(argv[1], "wb");
    uint32_t *colours = malloc(COUNT * 4), *values = malloc(COUNT * 4), *shown = malloc(COUNT * 4);
    if (in_rows) {
        draw(colours, atoi(argv[2]));
        put_rows_of_tiles(file, colours);
        return fclose(file);
    }
    uint8_t *data = malloc(COUNT * 13), *out = malloc(COUNT * 13);
    for (int picture = 0; picture < 5; picture++) {
        draw(colours, picture);
        for (int k = 0; k < 2; k++) {
            const Format *f = &FORMATS[k];
            for (int i = 0; i < COUNT; i++) values[i] = value_in(f, colours[i]);
            for (int encoding = RRE; encoding <= HEXTILE; encoding += HEXTILE - RRE) {
                size_t count = writes(encoding, f->size, values, data, SIZE_MAX), written = 0;
                double reading = 1e18, writing = 1e18;
                for (int round = 0; round < atoi(argv[2]); round++) {
                    double start = micros();
                    if (!reads(encoding, f->size, data, shown)) return 1;
                    double middle = micros();
                    written = writes(encoding, f->size, values, out, (size_t)COUNT * f->size);
                    double end = micros();
                    if (middle - start < reading) reading = middle - start;
                    if (end - middle < writing) writing = end - middle;
                }
                if (memcmp(shown, values, COUNT * 4) != 0) return 1;
                put_record(file, encoding, f, data, count, values);
                printf("%s, %s, %s|%.0f|%.0f|%zu\n", encoding == RRE ? "RRE" : "Hextile", f->name, PICTURES[picture], reading, writing, written);
            }
        }
    }
    return fclose(file);
}
