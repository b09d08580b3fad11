/* Bytes, pixels, the clock and lots. */
#include "load.h"
#include <errno.h>
#include <stdio.h>
#include <string.h>
#include <sys/socket.h>
#include <time.h>

static uint64_t lots;

double now(void)
{
    struct timespec time;
    clock_gettime(CLOCK_MONOTONIC, &time);
    return time.tv_sec + time.tv_nsec / 1e9;
}

void nap(double seconds)
{
    if (seconds <= 0) return;
    struct timespec time = {(time_t)seconds, (long)((seconds - (time_t)seconds) * 1e9)};
    nanosleep(&time, 0);
}

void seed_lots(uint64_t seed)
{
    lots = 88172645463325252ull + seed * 7919;
}

uint32_t draw_lot(void)
{
    lots ^= lots << 13;
    lots ^= lots >> 7;
    lots ^= lots << 17;
    return (uint32_t)(lots >> 16);
}

/* -1 where the connection ended. */
int receive(int link, void *bytes, size_t count)
{
    char *at = bytes;
    while (count) {
        ssize_t got = recv(link, at, count, 0);
        if (got < 0 && errno == EINTR) continue;
        if (got <= 0) return -1;
        at += got;
        count -= got;
    }
    return 0;
}

int deliver(int link, const void *bytes, size_t count)
{
    const char *at = bytes;
    while (count) {
        ssize_t put = send(link, at, count, MSG_NOSIGNAL);
        if (put < 0 && errno == EINTR) continue;
        if (put <= 0) return -1;
        at += put;
        count -= put;
    }
    return 0;
}

/* As `receive`, through the viewer's buffer; long runs go past it. */
static int fetch_raw(struct viewer *viewer, void *bytes, size_t count)
{
    char *at = bytes;
    while (count) {
        if (viewer->at < viewer->have) {
            size_t part = viewer->have - viewer->at;
            if (part > count) part = count;
            memcpy(at, viewer->input + viewer->at, part);
            viewer->at += part;
            at += part;
            count -= part;
            continue;
        }
        int straight = count >= 16384;
        ssize_t got = recv(viewer->link, straight ? at : (char *)viewer->input, straight ? count : INPUT_BYTES, 0);
        if (got < 0 && errno == EINTR) continue;
        if (got <= 0) return -1;
        if (measuring) viewer->bytes += got;
        if (straight) {
            at += got;
            count -= got;
        } else {
            viewer->at = 0;
            viewer->have = got;
        }
    }
    return 0;
}

/* The head of the next binary message of a WebSocket (RFC 6455, 5.2). A ping, which has no payload here, is passed over:
 * a run is shorter than a server waits for its pong. */
static int begin_message(struct viewer *viewer)
{
    uint8_t b[8];
    do {
        if (fetch_raw(viewer, b, 2)) return -1;
        int kind = b[0], size = b[1];
        if (size == 126) {
            if (fetch_raw(viewer, b, 2)) return -1;
            viewer->left = read_16(b);
        } else if (size == 127) {
            if (fetch_raw(viewer, b, 8)) return -1;
            viewer->left = (uint64_t)read_32(b) << 32 | read_32(b + 4);
        } else {
            viewer->left = size;
        }
        if (kind != 0x82 && !(kind == 0x89 && !viewer->left)) return -1;
    } while (!viewer->left);
    return 0;
}

/* The next bytes of the protocol, over TCP or in messages. */
int fetch(struct viewer *viewer, void *bytes, size_t count)
{
    char *at = bytes;
    if (!viewer->is_web) return fetch_raw(viewer, bytes, count);
    while (count) {
        if (!viewer->left && begin_message(viewer)) return -1;
        size_t part = viewer->left < count ? viewer->left : count;
        if (fetch_raw(viewer, at, part)) return -1;
        viewer->left -= part;
        at += part;
        count -= part;
    }
    return 0;
}

/* Up to 125 bytes, over TCP or in a message, whose mask is of no moment here. */
int tell(struct viewer *viewer, const void *bytes, size_t count)
{
    uint8_t frame[131] = {0x82, 0x80 | count};
    if (!viewer->is_web) return deliver(viewer->link, bytes, count);
    if (count > 125) return -1;
    memcpy(frame + 6, bytes, count);
    return deliver(viewer->link, frame, count + 6);
}

/* The opening handshake (RFC 6455, 4.1), whose key is of no moment here. */
int open_web(struct viewer *viewer)
{
    char text[512], end[4] = {0};
    int length = snprintf(text, sizeof text,
                          "GET /websockify HTTP/1.1\r\nHost: 127.0.0.1:%d\r\nUpgrade: websocket\r\nConnection: Upgrade\r\n"
                          "Sec-WebSocket-Key: dGhlIHNhbXBsZSBub25jZQ==\r\nSec-WebSocket-Version: 13\r\n"
                          "Sec-WebSocket-Protocol: binary\r\n\r\n", viewer->port);
    if (deliver(viewer->link, text, length) || fetch_raw(viewer, text, 12) || memcmp(text + 9, "101", 3)) return -1;
    while (memcmp(end, "\r\n\r\n", 4)) {
        memmove(end, end + 1, 3);
        if (fetch_raw(viewer, end + 3, 1)) return -1;
    }
    return 0;
}

void write_16(uint8_t *at, int value)
{
    at[0] = value >> 8;
    at[1] = value;
}

void write_32(uint8_t *at, uint32_t value)
{
    write_16(at, value >> 16);
    write_16(at + 2, value & 0xffff);
}

int read_16(const uint8_t *at)
{
    return at[0] << 8 | at[1];
}

uint32_t read_32(const uint8_t *at)
{
    return (uint32_t)read_16(at) << 16 | read_16(at + 2);
}

uint32_t spell(const int *shifts, uint32_t color)
{
    return (color >> 16 & 255) << shifts[0] | (color >> 8 & 255) << shifts[1] | (color & 255) << shifts[2];
}

uint32_t unspell(const int *shifts, uint32_t pixel)
{
    return (pixel >> shifts[0] & 255) << 16 | (pixel >> shifts[1] & 255) << 8 | (pixel >> shifts[2] & 255);
}
