/* ZRLE, in pixels of 32 bits whose colours lie in the three least significant bytes, the least significant first (RFC
 * 6143, 7.7.5 and 7.7.6). */
#include "load.h"
#include <stdlib.h>

#define SIDE 64

/* The tiles of a rectangle, as they are read. Behind their end there are zeros. */
struct tiles {
    const uint8_t *at, *end;
    uint32_t palette[128];
};

static uint8_t take(struct tiles *tiles)
{
    return tiles->at < tiles->end ? *tiles->at++ : 0;
}

static uint32_t take_pixel(struct tiles *tiles)
{
    uint32_t low = take(tiles), middle = take(tiles);
    return low | middle << 8 | (uint32_t)take(tiles) << 16;
}

static int take_length(struct tiles *tiles)
{
    int length = 1, byte;
    do {
        byte = take(tiles);
        length += byte;
    } while (byte == 255 && length <= SIDE * SIDE);
    return length;
}

static void take_palette(struct tiles *tiles, int count)
{
    for (int k = 0; k < count; k++) tiles->palette[k] = take_pixel(tiles);
}

static void paint_packed(struct tiles *tiles, int count, uint32_t *at, int width, int height)
{
    int bits = count == 2 ? 1 : count <= 4 ? 2 : 4;
    for (; height; height--, at += script.width)
        for (int x = 0, left = 0, byte = 0; x < width; x++, left -= bits) {
            if (!left) {
                byte = take(tiles);
                left = 8;
            }
            at[x] = tiles->palette[byte >> (left - bits) & ((1 << bits) - 1)];
        }
}

static int paint_runs(struct tiles *tiles, int has_palette, uint32_t *at, int width, int height)
{
    for (int done = 0, count = width * height; done < count;) {
        int index = has_palette ? take(tiles) : 128;
        uint32_t pixel = has_palette ? tiles->palette[index & 127] : take_pixel(tiles);
        int length = index & 128 ? take_length(tiles) : 1;
        if (length > count - done) return -1;
        for (; length; length--, done++) at[done / width * script.width + done % width] = pixel;
    }
    return 0;
}

static int paint_one(struct tiles *tiles, uint32_t *at, int width, int height)
{
    int kind = take(tiles);
    if (kind >= 128) {
        take_palette(tiles, kind & 127);
        return paint_runs(tiles, kind & 127, at, width, height);
    }
    if (kind > 16) return -1;
    take_palette(tiles, kind);
    if (kind > 1) {
        paint_packed(tiles, kind, at, width, height);
        return 0;
    }
    for (; height; height--, at += script.width)
        for (int x = 0; x < width; x++) at[x] = kind ? tiles->palette[0] : take_pixel(tiles);
    return 0;
}

/* The zlib data of the next rectangle, inflated on the viewer's stream. How many bytes, or -1. */
static long inflate_next(struct viewer *viewer, size_t most)
{
    uint8_t b[4];
    if (!viewer->zlib) {
        viewer->zlib = calloc(1, sizeof *viewer->zlib);
        inflateInit(viewer->zlib);
    }
    if (fetch(viewer, b, 4)) return -1;
    size_t count = read_32(b);
    if (count > 1 << 26) return -1;
    uint8_t *data = malloc(count + 1);
    viewer->tiles = realloc(viewer->tiles, most);
    viewer->zlib->next_in = data;
    viewer->zlib->avail_in = count;
    viewer->zlib->next_out = viewer->tiles;
    viewer->zlib->avail_out = most;
    int is_wrong = fetch(viewer, data, count) || inflate(viewer->zlib, Z_SYNC_FLUSH) != Z_OK || viewer->zlib->avail_in;
    free(data);
    return is_wrong ? -1 : (long)(most - viewer->zlib->avail_out);
}

int paint_zrle(struct viewer *viewer, int x, int y, int width, int height)
{
    size_t tile_count = (size_t)((width + SIDE - 1) / SIDE) * ((height + SIDE - 1) / SIDE);
    long count = inflate_next(viewer, (size_t)width * height * 5 + tile_count * 400);
    if (count < 0) return -1;
    struct tiles tiles = {.at = viewer->tiles, .end = viewer->tiles + count};
    for (int down = 0; down < height; down += SIDE)
        for (int across = 0; across < width; across += SIDE) {
            int columns = width - across < SIDE ? width - across : SIDE, rows = height - down < SIDE ? height - down : SIDE;
            uint32_t *at = viewer->screen + (size_t)(y + down) * script.width + x + across;
            if (paint_one(&tiles, at, columns, rows)) return -1;
        }
    return tiles.at == tiles.end ? 0 : -1;
}
