"""A C library that is loaded before a program's own, and refuses one growth of its memory."""

import mmap
import struct
import subprocess

import loopback

REFUSE = r"""
#define _GNU_SOURCE
#include <dlfcn.h>
#include <fcntl.h>
#include <stdatomic.h>
#include <stdlib.h>
#include <sys/mman.h>
#include <unistd.h>

/* Which growth from now on is refused: 1 is the next, and 0 and less is none. */
static _Atomic long *left;

__attribute__((constructor)) static void begin(void) {
    int file = open(getenv("REFUSE_BY"), O_RDWR);
    void *page = mmap(0, sizeof(long), PROT_READ | PROT_WRITE, MAP_SHARED, file, 0);
    if (file < 0 || page == MAP_FAILED) _exit(99);
    left = page;
}

static int is_refused(void) {
    return left && atomic_load(left) > 0 && atomic_fetch_sub(left, 1) == 1;
}

void *malloc(size_t size) {
    static void *(*next)(size_t);
    if (!next) next = dlsym(RTLD_NEXT, "malloc");
    return is_refused() ? 0 : next(size);
}

void *realloc(void *block, size_t size) {
    static void *(*next)(void *, size_t);
    if (!next) next = dlsym(RTLD_NEXT, "realloc");
    return is_refused() ? 0 : next(block, size);
}

void *aligned_alloc(size_t to, size_t size) {
    static void *(*next)(size_t, size_t);
    if (!next) next = dlsym(RTLD_NEXT, "aligned_alloc");
    return is_refused() ? 0 : next(to, size);
}

int posix_memalign(void **block, size_t to, size_t size) {
    static int (*next)(void **, size_t, size_t);
    if (!next) next = dlsym(RTLD_NEXT, "posix_memalign");
    return is_refused() ? 12 : next(block, to, size);
}
"""


class Growths:
    """Which growth of the programs that are started with `environment` is refused."""

    def __init__(self, room):
        loopback.need({"gcc": "gcc"})
        source, built, page = room / "refuse.c", room / "refuse.so", room / "growths"
        source.write_text(REFUSE)
        subprocess.run(["gcc", "-O2", "-shared", "-fPIC", "-o", built, source, "-ldl"], check=True)
        page.write_bytes(bytes(8))
        with open(page, "r+b") as file:
            self.page = mmap.mmap(file.fileno(), 8)
        self.environment = {"LD_PRELOAD": str(built), "REFUSE_BY": str(page)}

    def refuse(self, count):
        """From now on this growth is refused, of which 1 is the next, and 0 is none."""
        self.page[:] = struct.pack("=q", count)

    def was_refused(self):
        """Whether the growth that was to be refused has come."""
        return struct.unpack("=q", self.page[:])[0] <= 0
