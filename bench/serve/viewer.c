/* A viewer: it decodes what it is sent, looks which of the host's updates it shows, and asks for more. */
#include "load.h"
#include <netinet/in.h>
#include <netinet/tcp.h>
#include <stdio.h>
#include <string.h>
#include <sys/socket.h>
#include <sys/time.h>

static uint32_t *at_pixel(struct viewer *viewer, int x, int y)
{
    return viewer->screen + (size_t)y * script.width + x;
}

static void fill(struct viewer *viewer, int x, int y, int width, int height, uint32_t pixel)
{
    for (int row = 0; row < height; row++)
        for (int column = 0; column < width; column++) at_pixel(viewer, x, y + row)[column] = pixel;
}

static int fault(struct viewer *viewer, const char *what)
{
    viewer->fault = what;
    return -1;
}

static int paint_raw(struct viewer *viewer, int x, int y, int width, int height)
{
    if (width == script.width) return fetch(viewer, at_pixel(viewer, 0, y), (size_t)width * height * 4);
    for (int row = 0; row < height; row++)
        if (fetch(viewer, at_pixel(viewer, x, y + row), (size_t)width * 4)) return -1;
    return 0;
}

static int paint_copy(struct viewer *viewer, int x, int y, int width, int height)
{
    uint8_t b[4];
    if (fetch(viewer, b, 4)) return -1;
    int from_x = read_16(b), from_y = read_16(b + 2);
    if (from_x + width > script.width || from_y + height > script.height) return fault(viewer, "a copy from outside");
    for (int step = 0; step < height; step++) {
        int row = from_y >= y ? step : height - 1 - step;
        memmove(at_pixel(viewer, x, y + row), at_pixel(viewer, from_x, from_y + row), (size_t)width * 4);
    }
    return 0;
}

static int paint_rre(struct viewer *viewer, int x, int y, int width, int height)
{
    uint8_t b[12];
    uint32_t pixel;
    if (fetch(viewer, b, 8)) return -1;
    memcpy(&pixel, b + 4, 4);
    fill(viewer, x, y, width, height, pixel);
    for (uint32_t left = read_32(b); left; left--) {
        if (fetch(viewer, b, 12)) return -1;
        memcpy(&pixel, b, 4);
        int at_x = read_16(b + 4), at_y = read_16(b + 6), across = read_16(b + 8), down = read_16(b + 10);
        if (at_x + across > width || at_y + down > height) return fault(viewer, "RRE outside its rectangle");
        fill(viewer, x + at_x, y + at_y, across, down, pixel);
    }
    return 0;
}

/* Subrectangles of a tile (RFC 6143, 7.7.4). */
static int paint_specks(struct viewer *viewer, int x, int y, int width, int height, int colored, uint32_t *ink)
{
    uint8_t count, b[2];
    if (fetch(viewer, &count, 1)) return -1;
    for (; count; count--) {
        if (colored && fetch(viewer, ink, 4)) return -1;
        if (fetch(viewer, b, 2)) return -1;
        int at_x = b[0] >> 4, at_y = b[0] & 15, across = (b[1] >> 4) + 1, down = (b[1] & 15) + 1;
        if (at_x + across > width || at_y + down > height) return fault(viewer, "Hextile outside its tile");
        fill(viewer, x + at_x, y + at_y, across, down, *ink);
    }
    return 0;
}

static int paint_tile(struct viewer *viewer, int x, int y, int width, int height, uint32_t *ground, uint32_t *ink)
{
    uint8_t kind;
    if (fetch(viewer, &kind, 1)) return -1;
    if (kind & 1) return paint_raw(viewer, x, y, width, height);
    if (kind & 2 && fetch(viewer, ground, 4)) return -1;
    if (kind & 4 && fetch(viewer, ink, 4)) return -1;
    fill(viewer, x, y, width, height, *ground);
    return kind & 8 ? paint_specks(viewer, x, y, width, height, kind & 16, ink) : 0;
}

static int paint_hextile(struct viewer *viewer, int x, int y, int width, int height)
{
    uint32_t ground = 0, ink = 0;
    for (int down = 0; down < height; down += 16)
        for (int across = 0; across < width; across += 16) {
            int columns = width - across < 16 ? width - across : 16, rows = height - down < 16 ? height - down : 16;
            if (paint_tile(viewer, x + across, y + down, columns, rows, &ground, &ink)) return -1;
        }
    return 0;
}

static int paint_rectangle(struct viewer *viewer)
{
    uint8_t b[12];
    if (fetch(viewer, b, 12)) return -1;
    int x = read_16(b), y = read_16(b + 2), width = read_16(b + 4), height = read_16(b + 6);
    if (x + width > script.width || y + height > script.height) return fault(viewer, "a rectangle outside the screen");
    if (measuring) viewer->pixels += (uint64_t)width * height;
    switch (read_32(b + 8)) {
    case RAW: return paint_raw(viewer, x, y, width, height);
    case COPY_RECT: return paint_copy(viewer, x, y, width, height);
    case RRE: return paint_rre(viewer, x, y, width, height);
    case HEXTILE: return paint_hextile(viewer, x, y, width, height);
    case ZRLE: return paint_zrle(viewer, x, y, width, height) ? fault(viewer, "ZRLE that isn't read") : 0;
    }
    return fault(viewer, "an encoding that wasn't asked for");
}

int paint_update(struct viewer *viewer)
{
    uint8_t b[3];
    if (fetch(viewer, b, 3)) return -1;
    for (int left = read_16(b + 1); left; left--)
        if (paint_rectangle(viewer)) return -1;
    return 0;
}

static int reach(struct viewer *viewer)
{
    int one = 1;
    struct timeval longest = {60, 0};
    struct sockaddr_in to = {.sin_family = AF_INET, .sin_port = htons(viewer->port)};
    to.sin_addr.s_addr = htonl(INADDR_LOOPBACK);
    viewer->link = socket(AF_INET, SOCK_STREAM, 0);
    setsockopt(viewer->link, SOL_SOCKET, SO_RCVTIMEO, &longest, sizeof longest);
    setsockopt(viewer->link, IPPROTO_TCP, TCP_NODELAY, &one, sizeof one);
    if (connect(viewer->link, (void *)&to, sizeof to)) return -1;
    return viewer->is_web ? open_web(viewer) : 0;
}

static int shake_hands(struct viewer *viewer)
{
    uint8_t b[64];
    if (fetch(viewer, b, 12) || tell(viewer, "RFB 003.008\n", 12) || fetch(viewer, b, 1)) return -1;
    int types = b[0];
    if (!types || types > 60 || fetch(viewer, b, types)) return -1;
    if (tell(viewer, "\1", 1) || fetch(viewer, b, 4) || read_32(b)) return -1;
    if (tell(viewer, "\1", 1) || fetch(viewer, b, 24)) return -1;
    if (read_16(b) != script.width || read_16(b + 2) != script.height || b[4] != 32 || b[6])
        return fault(viewer, "another size or format than the host's");
    for (int k = 0; k < 3; k++) viewer->shifts[k] = b[14 + k];
    for (uint32_t left = read_32(b + 20); left; left--)
        if (fetch(viewer, b, 1)) return -1;
    uint8_t encodings[16] = {2, 0, 0, 2};
    write_32(encodings + 4, viewer->encoding);
    write_32(encodings + 8, COPY_RECT);
    if (viewer->encoding != ZRLE) return tell(viewer, encodings, 12);
    encodings[3] = 3;
    write_32(encodings + 12, viewer->second);
    return tell(viewer, encodings, 16);
}

static int ask(struct viewer *viewer, int incremental)
{
    uint8_t b[10] = {3, incremental};
    write_16(b + 6, script.width);
    write_16(b + 8, script.height);
    return tell(viewer, b, 10);
}

/* Notes each number that it hadn't seen yet, and how long the update took from the host to here. */
static void look(struct viewer *viewer, double when)
{
    int news = 0;
    for (int k = 0; k < script.places; k++) {
        int x = script.x[k] + script.area_width - 1, y = script.y[k] + script.area_height - 1;
        uint32_t number = unspell(viewer->shifts, *at_pixel(viewer, x, y));
        if (number <= viewer->seen[k] || number > last_update) continue;
        viewer->seen[k] = number;
        news = 1;
        if (measuring && viewer->times_count < viewer->times_room)
            viewer->times[viewer->times_count++] = (float)(when - due[number]);
    }
    if (measuring) viewer->updates++;
    if (measuring && news) viewer->frames++;
}

static int take_message(struct viewer *viewer)
{
    uint8_t kind, b[7];
    if (fetch(viewer, &kind, 1)) return -1;
    if (kind == 2) return 0;
    if (kind == 3) {
        if (fetch(viewer, b, 7)) return -1;
        for (uint32_t left = read_32(b + 3); left; left--)
            if (fetch(viewer, b, 1)) return -1;
        return 0;
    }
    if (kind != 0) return fault(viewer, "a message of no known type");
    if (paint_update(viewer)) return -1;
    double when = now();
    if (ask(viewer, 1)) return -1;
    viewer->ready = 1;
    look(viewer, when);
    return 0;
}

void *run_viewer(void *it)
{
    struct viewer *viewer = it;
    viewer->fault = "it wasn't let in";
    if (reach(viewer) || shake_hands(viewer) || ask(viewer, 0)) return it;
    viewer->fault = 0;
    while (!take_message(viewer))
        while (viewer->stalled && !stopping) nap(0.01);
    if (!viewer->fault) viewer->fault = "its connection ended";
    return it;
}

/* Whether the viewer holds the host's screen, colour by colour. */
int shows_the_same(const struct viewer *viewer)
{
    size_t count = (size_t)script.width * script.height;
    for (size_t i = 0; i < count; i++)
        if (unspell(viewer->shifts, viewer->screen[i]) != unspell(host.shifts, host.screen[i])) return 0;
    return 1;
}
