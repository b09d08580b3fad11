/* The host: it answers each request with the script's next update. */
#include "load.h"
#include <netinet/in.h>
#include <netinet/tcp.h>
#include <stdio.h>
#include <string.h>
#include <sys/socket.h>
#include <time.h>

/* Encodings that the reflector takes (RFC 6143, 7.5.2). */
static int hear_encodings(void)
{
    uint8_t b[4];
    if (receive(host.link, b, 3)) return -1;
    for (int count = read_16(b + 1); count > 0; count--) {
        if (receive(host.link, b, 4)) return -1;
        if (read_32(b) == COPY_RECT) host.can_copy = 1;
    }
    return 0;
}

static int hear_format(void)
{
    uint8_t b[19];
    if (receive(host.link, b, 19)) return -1;
    if (b[3] != 32 || b[5]) {
        fprintf(stderr, "load: the reflector asks for a format that this host doesn't paint\n");
        return -1;
    }
    for (int k = 0; k < 3; k++) host.shifts[k] = b[13 + k];
    return 0;
}

static int hear_request(void)
{
    uint8_t b[9];
    if (receive(host.link, b, 9)) return -1;
    pthread_mutex_lock(&host.lock);
    if (b[0]) host.more_asked = 1;
    else host.whole_asked = 1;
    pthread_cond_signal(&host.asked);
    pthread_mutex_unlock(&host.lock);
    return 0;
}

static int hear_cut_text(void)
{
    uint8_t b[7];
    if (receive(host.link, b, 7)) return -1;
    for (uint32_t left = read_32(b + 3); left; left--)
        if (receive(host.link, b, 1)) return -1;
    return 0;
}

static int hear_message(void)
{
    uint8_t kind, b[7];
    if (receive(host.link, &kind, 1)) return -1;
    switch (kind) {
    case 0: return hear_format();
    case 2: return hear_encodings();
    case 3: return hear_request();
    case 4: return receive(host.link, b, 7);
    case 5: return receive(host.link, b, 5);
    case 6: return hear_cut_text();
    }
    return -1;
}

static void *hear(void *unused)
{
    while (!hear_message()) continue;
    pthread_mutex_lock(&host.lock);
    host.link = -1;
    pthread_cond_signal(&host.asked);
    pthread_mutex_unlock(&host.lock);
    return unused;
}

/* What was asked: 2 a whole screen, 1 what changes, 0 nothing in that time, -1 where the reflector left. */
static int wait_for_request(double seconds)
{
    struct timespec end;
    clock_gettime(CLOCK_MONOTONIC, &end);
    end.tv_sec += (time_t)seconds;
    int asked = 0;
    pthread_mutex_lock(&host.lock);
    while (host.link >= 0 && !host.whole_asked && !host.more_asked)
        if (pthread_cond_timedwait(&host.asked, &host.lock, &end)) break;
    if (host.whole_asked) asked = 2;
    else if (host.more_asked) asked = 1;
    host.whole_asked = host.more_asked = 0;
    pthread_mutex_unlock(&host.lock);
    return host.link < 0 ? -1 : asked;
}

static uint8_t *head(uint8_t *at, int x, int y, int width, int height, uint32_t encoding)
{
    write_16(at, x);
    write_16(at + 2, y);
    write_16(at + 4, width);
    write_16(at + 6, height);
    write_32(at + 8, encoding);
    return at + 12;
}

static int send_message(const uint8_t *end)
{
    size_t count = end - host.message;
    if (deliver(host.link, host.message, count)) return -1;
    host.bytes += count;
    host.updates++;
    return 0;
}

/* The rectangle's pixels go to the message, and to the host's own screen where it is to be compared. */
static uint8_t *put_raw(uint8_t *at, int x, int y, int width, int height, const uint32_t *from, int stride)
{
    for (int row = 0; row < height; row++, at += (size_t)width * 4) {
        memcpy(at, from + (size_t)row * stride, (size_t)width * 4);
        if (host.screen) memcpy(host.screen + (size_t)(y + row) * script.width + x, at, (size_t)width * 4);
    }
    return at;
}

static uint8_t *put_number(uint8_t *end, int x, int y, uint32_t number)
{
    uint32_t pixel = spell(host.shifts, number);
    memcpy(end - 4, &pixel, 4);
    if (host.screen) host.screen[(size_t)y * script.width + x] = pixel;
    return end;
}

static int send_area(int x, int y, int width, int height, const uint32_t *from, int stride, uint32_t number)
{
    memset(host.message, 0, 3);
    host.message[3] = 1;
    uint8_t *at = head(host.message + 4, x, y, width, height, RAW);
    at = put_raw(at, x, y, width, height, from, stride);
    return send_message(put_number(at, x + width - 1, y + height - 1, number));
}

/* A page that moves up by a line of text: a CopyRect, and the new line in Raw. */
static int send_scroll(uint32_t number)
{
    int line = 16, x = script.x[0], y = script.y[0], width = script.area_width, height = script.area_height;
    memset(host.message, 0, 3);
    host.message[3] = 2;
    uint8_t *at = head(host.message + 4, x, y, width, height - line, COPY_RECT);
    write_16(at, x);
    write_16(at + 2, y + line);
    for (int row = 0; host.screen && row < height - line; row++)
        memmove(host.screen + (size_t)(y + row) * script.width + x,
                host.screen + (size_t)(y + row + line) * script.width + x, (size_t)width * 4);
    int last = y + height - line;
    const uint32_t *from = script.frames[number % FRAMES] + (size_t)(number % 20) * line * width;
    at = put_raw(head(at + 4, x, last, width, line, RAW), x, last, width, line, from, width);
    return send_message(put_number(at, x + width - 1, y + height - 1, number));
}

static int send_next(uint32_t number, int asked)
{
    int place = number % script.places;
    const uint32_t *frame = script.frames[number % FRAMES];
    if (asked == 2 || script.full) return send_area(0, 0, script.width, script.height, frame, script.width, number);
    if (script.scroll && host.can_copy) return send_scroll(number);
    return send_area(script.x[place], script.y[place], script.area_width, script.area_height,
                     frame + place * 977 % 4096, script.area_width, number);
}

/* Its first message to the reflector, of 28 bytes (RFC 6143, 7.3.2): true colour, 32 bits, little-endian. */
static int greet(int listener)
{
    uint8_t b[28] = {0};
    int one = 1, link = accept(listener, 0, 0);
    setsockopt(link, IPPROTO_TCP, TCP_NODELAY, &one, sizeof one);
    if (deliver(link, "RFB 003.008\n", 12) || receive(link, b, 12) || deliver(link, "\1\1", 2)
        || receive(link, b, 1) || deliver(link, "\0\0\0\0", 4) || receive(link, b, 1)) return -1;
    static const uint8_t format[16] = {32, 24, 0, 1, 0, 255, 0, 255, 0, 255, 16, 8, 0};
    write_16(b, script.width);
    write_16(b + 2, script.height);
    memcpy(b + 4, format, 16);
    write_32(b + 20, 4);
    memcpy(b + 24, "load", 4);
    if (deliver(link, b, 28)) return -1;
    host.link = link;
    return 0;
}

static void paint_all(void)
{
    double next = now() + 0.2;
    for (uint32_t number = 1; !stopping && number < MOST_UPDATES; ) {
        if (script.idle || !painting) {
            nap(0.02);
            continue;
        }
        if (script.paced) {
            nap(next - now());
            next = now() + 0.030 + draw_lot() % 20000 / 1e6; /* a phase that no poll interval can lock on to */
        }
        double paced = now();
        int asked = wait_for_request(1.0);
        if (asked < 0) return;
        if (asked == 0) continue;
        due[number] = script.paced ? paced : now();
        last_update = number;
        if (send_next(number, asked)) return;
        number++;
    }
}

void *run_host(void *unused)
{
    pthread_t hearing;
    if (greet(host.listener)) return unused;
    pthread_create(&hearing, 0, hear, 0);
    pthread_detach(hearing);
    if (wait_for_request(20) <= 0) return unused;
    if (send_area(0, 0, script.width, script.height, script.frames[0], script.width, 0)) return unused;
    while (!begun && !stopping) nap(0.01);
    paint_all();
    return unused;
}
