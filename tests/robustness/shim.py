"""A library that is loaded before C's and lets one allocation, one read or one write of the program fail.

The variable REFUSED is the number of the allocation that fails, counted from 1 over `malloc` and `realloc`; COUNTED
asks for their number on standard error at the end. With FAILED_READ and FAILED_WRITE a read or a write moves ten bytes
at most, and the call of that number fails; 0 lets none fail. It is compiled by `cc`, and only these scripts load it.
"""
import atexit
import os
import shutil
import subprocess
import tempfile

TEXT = r'''
#define _GNU_SOURCE
#include <errno.h>
#include <stddef.h>
#include <stdio.h>
#include <stdlib.h>
#include <sys/syscall.h>
#include <unistd.h>

extern void *__libc_malloc(size_t);
extern void *__libc_realloc(void *, size_t);

static long grown, refused = -1, reads, writes;

static long number(const char *name) { const char *text = getenv(name); return text ? atol(text) : 0; }

static int is_refused(void) {
    if (refused < 0) refused = number("REFUSED");
    return ++grown == refused;
}

void *malloc(size_t size) { return is_refused() ? NULL : __libc_malloc(size); }

void *realloc(void *old, size_t size) { return is_refused() ? NULL : __libc_realloc(old, size); }

static long moved(long call, int file, const void *bytes, size_t size, const char *name, long *calls) {
    if (getenv(name)) {
        if (++*calls == number(name)) { errno = EIO; return -1; }
        if (size > 10) size = 10;
    }
    return syscall(call, file, bytes, size);
}

ssize_t read(int file, void *bytes, size_t size) { return moved(SYS_read, file, bytes, size, "FAILED_READ", &reads); }

ssize_t write(int file, const void *bytes, size_t size) {
    return moved(SYS_write, file, bytes, size, "FAILED_WRITE", &writes);
}

__attribute__((destructor)) static void tell(void) {
    char line[80];
    if (!getenv("COUNTED")) return;
    int size = snprintf(line, sizeof line, "%ld %ld %ld", grown, reads, writes);
    syscall(SYS_write, 2, line, (size_t)size);
}
'''


def made() -> str:
    """Compiles the library, and gives its path; it goes when the script ends."""
    folder = tempfile.mkdtemp()
    atexit.register(shutil.rmtree, folder)
    library = os.path.join(folder, 'shim.so')
    words = ['cc', '-O1', '-shared', '-fPIC', '-fno-builtin', '-x', 'c', '-', '-o', library]
    subprocess.run(words, input=TEXT.encode(), check=True)
    return library
