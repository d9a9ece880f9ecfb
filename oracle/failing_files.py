"""A run whose n-th call on files fails, and all behind it; or that ends at it as by a power cut.

Counted are the calls of the C library on what stands below a folder: to open, read, write, bring to the disk, rename, remove,
look at, list, make, lock, and to change mode, owner and length. It needs a C compiler."""
from __future__ import annotations

import itertools
import os
import subprocess
import tempfile
from typing import List, Tuple

SHIM = r'''
#define _GNU_SOURCE
#include <dlfcn.h>
#include <errno.h>
#include <fcntl.h>
#include <signal.h>
#include <stdarg.h>
#include <stdio.h>
#include <stdlib.h>
#include <string.h>
#include <sys/stat.h>
#include <unistd.h>

static int is_below(const char *path) {
    const char *folder = getenv("SITE_FOLDER");
    size_t n = folder ? strlen(folder) : 0;
    return n && path && !strncmp(path, folder, n) && (path[n] == '/' || !path[n]);
}
static int is_open_below(int file) {
    char link[64], path[4200];
    snprintf(link, sizeof link, "/proc/self/fd/%d", file);
    ssize_t n = readlink(link, path, sizeof path - 1);
    if (n < 0) return 0;
    path[n] = 0;
    return is_below(path);
}
static int is_below_at(int folder, const char *path) {
    return path && path[0] == '/' ? is_below(path) : folder != AT_FDCWD && is_open_below(folder);
}
static int fails(int counted) {
    static long calls;
    const char *call = getenv("FAIL_CALL");
    if (!counted || !call || ++calls < atol(call)) return 0;
    int made = symlink("yes", getenv("FAILED"));
    (void)made;
    if (getenv("FAIL_KILLS")) kill(getpid(), SIGKILL);
    errno = EIO;
    return 1;
}

/* type, name, parameters, arguments, whether it is counted */
#define CALL(type, name, parameters, arguments, counted) \
    type name parameters { \
        static type (*next) parameters; \
        if (!next) next = dlsym(RTLD_NEXT, #name); \
        return fails(counted) ? (type)-1 : next arguments; \
    }
#define OPEN(name, first, of, counted) \
    int name(first const char *path, int flags, ...) { \
        static int (*next)(first const char *, int, ...); \
        va_list more; \
        va_start(more, flags); \
        int mode = flags & (O_CREAT | __O_TMPFILE) ? va_arg(more, int) : 0; \
        va_end(more); \
        if (!next) next = dlsym(RTLD_NEXT, #name); \
        return fails(counted) ? -1 : next(of path, flags, mode); \
    }
#define NONE
#define AT int folder,
#define ITS folder,
OPEN(open, NONE, NONE, is_below(path))
OPEN(open64, NONE, NONE, is_below(path))
OPEN(openat, AT, ITS, is_below_at(folder, path))
OPEN(openat64, AT, ITS, is_below_at(folder, path))
CALL(ssize_t, read, (int f, void *p, size_t n), (f, p, n), is_open_below(f))
CALL(ssize_t, pread, (int f, void *p, size_t n, off_t o), (f, p, n, o), is_open_below(f))
CALL(ssize_t, write, (int f, const void *p, size_t n), (f, p, n), is_open_below(f))
CALL(ssize_t, __write, (int f, const void *p, size_t n), (f, p, n), is_open_below(f))
CALL(ssize_t, pwrite, (int f, const void *p, size_t n, off_t o), (f, p, n, o), is_open_below(f))
CALL(ssize_t, writev, (int f, const void *p, int n), (f, p, n), is_open_below(f))
CALL(ssize_t, getdents64, (int f, void *p, size_t n), (f, p, n), is_open_below(f))
CALL(int, fsync, (int f), (f), is_open_below(f))
CALL(int, fdatasync, (int f), (f), is_open_below(f))
CALL(int, ftruncate, (int f, off_t n), (f, n), is_open_below(f))
CALL(int, fchmod, (int f, mode_t m), (f, m), is_open_below(f))
CALL(int, fchown, (int f, uid_t u, gid_t g), (f, u, g), is_open_below(f))
CALL(int, flock, (int f, int o), (f, o), is_open_below(f))
CALL(int, rename, (const char *a, const char *b), (a, b), is_below(a) || is_below(b))
CALL(int, renameat, (int d, const char *a, int e, const char *b), (d, a, e, b), is_below_at(d, a) || is_below_at(e, b))
CALL(int, link, (const char *a, const char *b), (a, b), is_below(a) || is_below(b))
CALL(int, linkat, (int d, const char *a, int e, const char *b, int g), (d, a, e, b, g), is_below_at(d, a) || is_below_at(e, b))
CALL(int, unlink, (const char *p), (p), is_below(p))
CALL(int, unlinkat, (int d, const char *p, int g), (d, p, g), is_below_at(d, p))
CALL(int, rmdir, (const char *p), (p), is_below(p))
CALL(int, mkdir, (const char *p, mode_t m), (p, m), is_below(p))
CALL(int, chmod, (const char *p, mode_t m), (p, m), is_below(p))
CALL(int, chown, (const char *p, uid_t u, gid_t g), (p, u, g), is_below(p))
CALL(int, lchown, (const char *p, uid_t u, gid_t g), (p, u, g), is_below(p))
CALL(int, statx, (int d, const char *restrict p, int g, unsigned m, struct statx *restrict s), (d, p, g, m, s),
     p && p[0] ? is_below_at(d, p) : is_open_below(d))
'''


def made_library(folder: str, source: str) -> str:
    """A library of this C source, to be loaded before a program's own."""
    with open(folder + '/shim.c', 'w') as file:
        file.write(source)
    subprocess.run(['cc', '-shared', '-fPIC', '-O1', '-o', folder + '/shim.so', folder + '/shim.c', '-ldl'], check=True)
    return folder + '/shim.so'


class Shim:
    """The library, made in a folder of its own while this is open."""

    def __enter__(self) -> Shim:
        self.room, self.marks = tempfile.TemporaryDirectory(), itertools.count()
        self.library = made_library(self.room.name, SHIM)
        return self

    def __exit__(self, *_: object) -> None:
        self.room.cleanup()

    def run(self, words: List[str], folder: str, call: int, kills: bool = False) -> Tuple[subprocess.CompletedProcess[bytes], bool]:
        """(how the run ended, whether it came to that call)"""
        mark = '%s/failed.%d' % (self.room.name, next(self.marks))
        more = {'LD_PRELOAD': self.library, 'SITE_FOLDER': folder, 'FAIL_CALL': str(call), 'FAILED': mark}
        done = subprocess.run(words, capture_output=True, timeout=120, env={**os.environ, **more, **({'FAIL_KILLS': '1'} if kills else {})})
        came = os.path.islink(mark)
        if came:
            os.unlink(mark)
        return done, came
