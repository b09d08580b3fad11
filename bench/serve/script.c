/* What the host paints, by the mode's name. */
#include "load.h"
#include <stdio.h>
#include <stdlib.h>
#include <string.h>

/* Cells of 8 by 16: two colours in most, some in an ink of their own. */
static void write_text(uint32_t *pixels, size_t count)
{
    for (size_t i = 0; i < count; i++) pixels[i] = 0xf0f0f0;
    for (int row = 0; row < script.area_height / 16; row++)
        for (int column = 0; column < script.area_width / 8; column++) {
            if (draw_lot() % 4 == 0) continue;
            uint32_t ink = draw_lot() % 12 ? 0x202020 : draw_lot() & 0xffffff;
            for (int y = 3; y < 13; y++)
                for (int x = 1; x < 7; x++)
                    if (draw_lot() % 3 == 0)
                        pixels[(size_t)(row * 16 + y) * script.area_width + column * 8 + x] = ink;
        }
}

/* Smooth gradients with some noise. */
static void take_photo(uint32_t *pixels, size_t count, int frame)
{
    for (size_t i = 0; i < count; i++) {
        int x = i % script.area_width, y = i / script.area_width;
        pixels[i] = ((x / 3 + frame * 11 + draw_lot() % 3) & 255) << 16 | ((y / 2 + draw_lot() % 3) & 255) << 8
                    | (((x + y) / 4 + draw_lot() % 3) & 255);
    }
}

static void make_frames(void)
{
    size_t count = (size_t)script.width * script.height + 8192;
    for (int frame = 0; frame < FRAMES; frame++) {
        uint32_t *pixels = script.frames[frame] = malloc(count * 4);
        if (script.text) write_text(pixels, count);
        else if (script.photo) take_photo(pixels, count, frame);
        else
            for (size_t i = 0; i < count; i++) pixels[i] = draw_lot() & 0xffffff;
    }
}

static void choose_areas(void)
{
    script.places = 1;
    script.area_width = script.width;
    script.area_height = script.height;
    if (script.small) {
        script.places = MOST_PLACES;
        script.area_width = script.area_height = 64;
        for (int k = 0; k < MOST_PLACES; k++) { /* not on the borders of tiles */
            script.x[k] = k % 4 * (script.width / 4) + 37;
            script.y[k] = k / 4 * (script.height / 4) + 21;
        }
    } else if ((script.text || script.photo) && !script.idle) {
        script.area_width = 640;
        script.area_height = script.text ? 400 : 480;
        script.x[0] = script.y[0] = script.text ? 100 : 64;
    }
}

/* 0, or -1 where there is no such mode or the screen is too small for it. */
int choose_script(const char *mode, int width, int height)
{
    script.width = width;
    script.height = height;
    int is_paced_text = !strcmp(mode, "paced");
    script.paced = is_paced_text || !strcmp(mode, "small");
    script.small = !strcmp(mode, "small") || !strcmp(mode, "smallmax");
    script.full = !strcmp(mode, "noise");
    script.scroll = !strcmp(mode, "scroll");
    script.text = script.scroll || is_paced_text || !strcmp(mode, "desktop");
    script.photo = !strcmp(mode, "photo");
    int is_page = !strcmp(mode, "page");
    script.text |= is_page;
    script.idle = is_page || !strcmp(mode, "idle");
    if (!script.small && !script.full && !script.text && !script.photo && !script.idle) return -1;
    choose_areas();
    if (script.area_width > width - script.x[0] || script.area_height > height - script.y[0]) return -1;
    make_frames();
    return 0;
}
