/* A VNC server of libvncserver (Debian's libvncserver-dev) that shows one of four pictures and serves until it is
 * killed.
 *
 * usage: libvncserver_host PORT PICTURE      PICTURE: 0 flat with boxes, 1 lines of text, 2 a gradient, 3 noise */
#include <rfb/rfb.h>
#include <stdint.h>
#include <stdlib.h>

enum { WIDTH = 50, HEIGHT = 40 };

static uint32_t state = 6143;

static uint32_t next_random(void) {
  state = state * 1664525u + 1013904223u;
  return state >> 8;
}

static void draw(uint32_t *screen, int picture) {
  for (int y = 0; y < HEIGHT; y++)
    for (int x = 0; x < WIDTH; x++) {
      uint32_t value = 0x204060;
      if (picture == 1 && (x % 6) < 5 && (y % 9) < 7 && (next_random() & 3) == 0) value = 0xFFFFFF;
      if (picture == 2) value = (uint32_t)(x * 2) << 16 | (uint32_t)(y * 3) << 8 | 0x80;
      if (picture == 3) value = next_random() & 0xFFFFFF;
      screen[y * WIDTH + x] = value;
    }
  if (picture != 0) return;
  for (int box = 0; box < 12; box++) {
    uint32_t value = next_random() & 0xFFFFFF;
    int left = next_random() % WIDTH, top = next_random() % HEIGHT;
    int right = left + 1 + next_random() % (WIDTH - left), bottom = top + 1 + next_random() % (HEIGHT - top);
    for (int y = top; y < bottom; y++)
      for (int x = left; x < right; x++) screen[y * WIDTH + x] = value;
  }
}

int main(int argc, char **argv) {
  if (argc != 3) return 2;
  int none = 0;
  rfbScreenInfoPtr server = rfbGetScreen(&none, NULL, WIDTH, HEIGHT, 8, 3, 4);
  server->frameBuffer = malloc(WIDTH * HEIGHT * 4);
  server->serverFormat.redShift = 16;
  server->serverFormat.greenShift = 8;
  server->serverFormat.blueShift = 0;
  server->cursor = NULL;
  server->port = atoi(argv[1]);
  server->ipv6port = 0;
  server->listenInterface = htonl(INADDR_LOOPBACK);
  draw((uint32_t *)server->frameBuffer, atoi(argv[2]));
  rfbInitServer(server);
  rfbRunEventLoop(server, 10000, FALSE);
  return 0;
}
