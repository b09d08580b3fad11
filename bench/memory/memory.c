/* How much memory the session of one viewer takes: bytes reserved, and bytes of pages touched.
 *
 * Each block that is asked for is mapped on its own, so that the kernel tells which of its pages are in memory when
 * it is given back. What the screen takes that is answered from is measured alone, and taken off. */
#define _GNU_SOURCE
#include <stdbool.h>
#include <stdint.h>
#include <stdio.h>
#include <string.h>
#include <sys/mman.h>

/* The proved session and its screen, of out/libc_trial.a. */
bool bench_screen(uint16_t width, uint16_t height);
uint64_t bench_session(uint8_t encoding, uint16_t width, uint16_t height);

enum { PAGE = 4096, MOST_BLOCKS = 64, MOST_PAGES = 1 << 16 };

static struct {
    uint8_t *start;
    size_t size;
} blocks[MOST_BLOCKS];

/* What was asked for since it was last set to nothing, and of it the touched pages that were given back. */
struct taken {
    size_t blocks, reserved, touched;
};

static struct taken taken;

static size_t whole_pages(size_t size) { return (size + PAGE - 1) / PAGE * PAGE; }

static size_t find_block(const void *start) {
    for (size_t k = 0; k < MOST_BLOCKS; k++)
        if (blocks[k].start == start) return k;
    return MOST_BLOCKS;
}

void *__wrap_malloc(size_t size) {
    size_t k = find_block(NULL);
    if (k == MOST_BLOCKS || size == 0) return NULL;
    uint8_t *start = mmap(NULL, whole_pages(size), PROT_READ | PROT_WRITE, MAP_PRIVATE | MAP_ANONYMOUS, -1, 0);
    if (start == MAP_FAILED) return NULL;
    madvise(start, whole_pages(size), MADV_NOHUGEPAGE);
    blocks[k].start = start;
    blocks[k].size = size;
    taken.reserved += size;
    taken.blocks++;
    return start;
}

void __wrap_free(void *start) {
    static unsigned char resident[MOST_PAGES];
    if (!start) return;
    size_t k = find_block(start), length = whole_pages(blocks[k].size);
    if (mincore(start, length, resident) == 0)
        for (size_t page = 0; page < length / PAGE; page++) taken.touched += resident[page] & 1 ? PAGE : 0;
    munmap(start, length);
    blocks[k].start = NULL;
}

/* A session takes its room once, and never makes it larger. */
void *__wrap_realloc(void *start, size_t size) {
    void *other = __wrap_malloc(size);
    if (!other || !start) return other;
    size_t before = blocks[find_block(start)].size;
    memcpy(other, start, before < size ? before : size);
    __wrap_free(start);
    return other;
}

/* What the screen takes alone. */
static struct taken of_screen(const uint16_t *size) {
    taken = (struct taken){0};
    if (!bench_screen(size[0], size[1])) taken.blocks = 0;
    return taken;
}

int main(void) {
    static const uint16_t sizes[][2] = {{640, 480}, {1920, 1080}, {4096, 4096}};
    static const struct {
        const char *name;
        uint8_t number;
    } encodings[] = {{"Raw", 0}, {"RRE", 2}, {"Hextile", 5}};
    printf("| Screen | Encoding | bytes of the answer | blocks | bytes reserved | bytes touched |\n");
    printf("|---|---|---|---|---|---|\n");
    for (size_t k = 0; k < sizeof sizes / sizeof *sizes; k++)
        for (size_t e = 0; e < sizeof encodings / sizeof *encodings; e++) {
            struct taken screen = of_screen(sizes[k]);
            taken = (struct taken){0};
            uint64_t sent = bench_session(encodings[e].number, sizes[k][0], sizes[k][1]);
            if (screen.blocks == 0 || sent == 0) return fputs("refused\n", stderr), 1;
            printf("| %u by %u | %s | %llu | %zu | %zu | %zu |\n", sizes[k][0], sizes[k][1], encodings[e].name,
                   (unsigned long long)sent, taken.blocks - screen.blocks, taken.reserved - screen.reserved,
                   taken.touched - screen.touched);
        }
    return 0;
}
