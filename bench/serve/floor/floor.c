/* floor PORT WIDTH HEIGHT
 *
 * A VNC server at 127.0.0.1:PORT that answers each request with the same whole screen of noise in Raw, a rectangle for
 * each row of tiles, in one `send` from one buffer: what the kernel takes to send such bytes, and nothing else. It ends
 * when it is told to.
 */
#define _GNU_SOURCE
#include <arpa/inet.h>
#include <errno.h>
#include <netinet/in.h>
#include <netinet/tcp.h>
#include <pthread.h>
#include <stdint.h>
#include <stdlib.h>
#include <string.h>
#include <sys/prctl.h>
#include <sys/socket.h>
#include <signal.h>

enum { TILE = 16 };

static int width, height;
static uint8_t *update;
static size_t update_len;

static void write_16(uint8_t *at, int value)
{
    at[0] = value >> 8;
    at[1] = value;
}

static void make_update(void)
{
    int count = (height + TILE - 1) / TILE;
    uint32_t lots = 88172645;
    update_len = 4 + (size_t)count * 12 + (size_t)width * height * 4;
    uint8_t *at = update = malloc(update_len);
    memset(at, 0, 2);
    write_16(at + 2, count);
    at += 4;
    for (int y = 0; y < height; y += TILE) {
        int rows = height - y < TILE ? height - y : TILE;
        memset(at, 0, 12);
        write_16(at + 2, y);
        write_16(at + 4, width);
        write_16(at + 6, rows);
        at += 12;
        for (size_t i = 0; i < (size_t)width * rows; i++, at += 4) {
            lots = lots * 1664525 + 1013904223;
            uint32_t pixel = lots >> 8;
            memcpy(at, &pixel, 4);
        }
    }
}

static int receive(int link, void *bytes, size_t count)
{
    while (count) {
        ssize_t got = recv(link, bytes, count, 0);
        if (got < 0 && errno == EINTR) continue;
        if (got <= 0) return -1;
        bytes = (char *)bytes + got;
        count -= got;
    }
    return 0;
}

static int deliver(int link, const void *bytes, size_t count)
{
    while (count) {
        ssize_t put = send(link, bytes, count, MSG_NOSIGNAL);
        if (put < 0 && errno == EINTR) continue;
        if (put <= 0) return -1;
        bytes = (const char *)bytes + put;
        count -= put;
    }
    return 0;
}

/* The handshake (RFC 6143, 7.1 to 7.3): no name, true colour, 32 bits, little-endian. */
static int greet(int link)
{
    uint8_t b[24] = {0, 0, 0, 0, 32, 24, 0, 1, 0, 255, 0, 255, 0, 255, 16, 8, 0};
    uint8_t heard[16];
    write_16(b, width);
    write_16(b + 2, height);
    return deliver(link, "RFB 003.008\n", 12) || receive(link, heard, 12) || deliver(link, "\1\1", 2)
           || receive(link, heard, 1) || deliver(link, "\0\0\0\0", 4) || receive(link, heard, 1)
           || deliver(link, b, 24);
}

/* Answers requests; reads past the viewer's encodings. */
static int answer(int link)
{
    uint8_t b[9];
    if (receive(link, b, 1)) return -1;
    if (b[0] == 3) return receive(link, b, 9) || deliver(link, update, update_len);
    if (b[0] != 2 || receive(link, b, 3)) return -1;
    for (int left = b[1] << 8 | b[2]; left; left--)
        if (receive(link, b, 4)) return -1;
    return 0;
}

static void *serve(void *it)
{
    int link = (int)(intptr_t)it, one = 1;
    setsockopt(link, IPPROTO_TCP, TCP_NODELAY, &one, sizeof one);
    if (!greet(link))
        while (!answer(link)) continue;
    return 0;
}

int main(int count, char **words)
{
    if (count != 4) return 2;
    prctl(PR_SET_PDEATHSIG, SIGKILL);
    width = atoi(words[2]);
    height = atoi(words[3]);
    make_update();
    int one = 1, listener = socket(AF_INET, SOCK_STREAM, 0);
    struct sockaddr_in at = {.sin_family = AF_INET, .sin_port = htons(atoi(words[1]))};
    at.sin_addr.s_addr = htonl(INADDR_LOOPBACK);
    setsockopt(listener, SOL_SOCKET, SO_REUSEADDR, &one, sizeof one);
    if (bind(listener, (void *)&at, sizeof at) || listen(listener, 64)) return 3;
    for (;;) {
        pthread_t thread;
        int link = accept(listener, 0, 0);
        if (link < 0 || pthread_create(&thread, 0, serve, (void *)(intptr_t)link)) return 3;
    }
}
