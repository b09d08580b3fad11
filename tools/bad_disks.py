"""A C library that is loaded before a program's own, and makes the disk of its files slow, sparing or bad.

What is written to standard error and to sockets isn't changed.
"""

import subprocess

import loopback

SOURCE = r"""
#define _GNU_SOURCE
#include <dlfcn.h>
#include <errno.h>
#include <stdio.h>
#include <stdlib.h>
#include <string.h>
#include <sys/stat.h>
#include <sys/types.h>
#include <unistd.h>

static long number(const char *name) {
    const char *text = getenv(name);
    return text ? atol(text) : 0;
}

/* Whether it is a file of the name's end that is meant. */
static int is_meant(int file) {
    char link[64], path[4096];
    struct stat found;
    const char *end = getenv("DISK_END");
    if (file < 3 || fstat(file, &found) || !S_ISREG(found.st_mode)) return 0;
    if (!end) return 1;
    snprintf(link, sizeof link, "/proc/self/fd/%d", file);
    ssize_t size = readlink(link, path, sizeof path);
    size_t count = strlen(end);
    return size >= (ssize_t)count && !memcmp(path + size - count, end, count);
}

/* DISK_MILLIS: how long a write takes. DISK_SPARES: a write takes a part of the bytes. DISK_SIGNALS: of one in four it
   is said that a signal came before. DISK_BYTES: how many bytes the disk takes before it is bad. */
ssize_t write(int file, const void *bytes, size_t count) {
    static ssize_t (*next)(int, const void *, size_t);
    static long taken;
    if (!next) next = (ssize_t (*)(int, const void *, size_t))dlsym(RTLD_NEXT, "write");
    if (!is_meant(file)) return next(file, bytes, count);
    long most = number("DISK_BYTES");
    usleep(1000 * number("DISK_MILLIS"));
    if (number("DISK_SIGNALS") && rand() % 4 == 0) return errno = EINTR, -1;
    if (number("DISK_SPARES")) count = 1 + rand() % count;
    if (most && taken >= most) return errno = EIO, -1;
    if (most && (long)count > most - taken) count = most - taken;
    ssize_t took = next(file, bytes, count);
    if (took > 0) taken += took;
    return took;
}
"""


def build(room):
    """The library, built by gcc into the folder."""
    loopback.need({"gcc": "gcc"})
    library = room / "disk.so"
    words = ["gcc", "-O2", "-shared", "-fPIC", "-x", "c", "-", "-o", library, "-ldl"]
    subprocess.run(words, input=SOURCE.encode(), check=True)
    return library
