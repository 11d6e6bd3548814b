"""Libraries that are loaded before the C library, by LD_PRELOAD, so that a run is refused memory or sees another clock."""
import subprocess

CALLS_BEFORE = r"""
#include <stdlib.h>
extern void *__libc_malloc(size_t), *__libc_realloc(void *, size_t), *__libc_calloc(size_t, size_t);
"""
CALLS = r"""
void *malloc(size_t size) { return refuses() ? NULL : __libc_malloc(size); }
void *realloc(void *place, size_t size) { return refuses() ? NULL : __libc_realloc(place, size); }
void *calloc(size_t number, size_t size) { return refuses() ? NULL : __libc_calloc(number, size); }
"""


def refusing(refuses):
    """The text of a library that refuses memory when this function, `static int refuses(void)`, says so."""
    return CALLS_BEFORE + refuses + CALLS


def build(path, source):
    """Builds a library from this text of C. FileNotFoundError if there is no compiler, CalledProcessError if it fails."""
    words = ["cc", "-O1", "-shared", "-fPIC", "-o", path, "-x", "c", "-", "-ldl"]
    subprocess.run(words, input=source, text=True, check=True)
    return path
