/* A VNC host and its viewers in one process with one clock, to load a reflector between them. */
#ifndef LOAD_H
#define LOAD_H
#define _GNU_SOURCE
#include <pthread.h>
#include <stdint.h>
#include <stddef.h>
#include <zlib.h>

#define MOST_UPDATES (1 << 22)
#define MOST_VIEWERS 512
#define MOST_GROUPS 16
#define MOST_PLACES 16
#define FRAMES 3
#define INPUT_BYTES 65536

enum { RAW = 0, COPY_RECT = 1, RRE = 2, HEXTILE = 5, ZRLE = 16 };

/* What is painted. An update's number stands, as a colour of 24 bits, on the last pixel of its area. */
struct script {
    int width, height;
    int paced, idle, full, scroll, small, text, photo, still;
    int places, x[MOST_PLACES], y[MOST_PLACES], area_width, area_height;
    uint32_t *frames[FRAMES];
};

struct host {
    int port, listener, link, shifts[3], can_copy;
    int whole_asked, more_asked;
    pthread_mutex_t lock;
    pthread_cond_t asked;
    uint8_t *message;
    uint32_t *screen; /* what the host shows, where it is to be compared, or else 0 */
    uint64_t updates, bytes;
};

struct viewer {
    int link, port, group, encoding, second, shifts[3], is_web; /* second: what it takes where ZRLE isn't written */
    uint64_t left; /* of the message that is read, over a WebSocket */
    uint32_t *screen, seen[MOST_PLACES];
    uint8_t *input;
    size_t at, have;
    z_stream *zlib; /* the connection's stream, from its first rectangle in ZRLE on */
    uint8_t *tiles;
    uint64_t bytes, pixels, updates, frames, frames_before;
    float *times; /* seconds from an update to this viewer's holding it */
    size_t times_count, times_room;
    volatile int ready, stalled;
    const char *fault;
    pthread_t thread;
};

extern struct script script;
extern struct host host;
extern double *due; /* when each update was due */
extern volatile uint32_t last_update;
extern volatile int measuring, stopping, begun, painting;

double now(void);
void nap(double seconds);
uint32_t draw_lot(void);
void seed_lots(uint64_t seed);
int receive(int link, void *bytes, size_t count);
int deliver(int link, const void *bytes, size_t count);
void write_16(uint8_t *at, int value);
void write_32(uint8_t *at, uint32_t value);
int read_16(const uint8_t *at);
uint32_t read_32(const uint8_t *at);
uint32_t spell(const int *shifts, uint32_t color);
uint32_t unspell(const int *shifts, uint32_t pixel);
int fetch(struct viewer *viewer, void *bytes, size_t count);
int tell(struct viewer *viewer, const void *bytes, size_t count);
int open_web(struct viewer *viewer);

int choose_script(const char *mode, int width, int height);
void *run_host(void *unused);
int paint_zrle(struct viewer *viewer, int x, int y, int width, int height);
int paint_update(struct viewer *viewer);
void *run_viewer(void *viewer);
int shows_the_same(const struct viewer *viewer);
#endif
