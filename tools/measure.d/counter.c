/* A library that, loaded before the C library, prints how often memory was asked for. */
#include <stddef.h>
#include <stdio.h>
extern void *__libc_malloc(size_t), *__libc_realloc(void *, size_t), *__libc_calloc(size_t, size_t);
static unsigned long count;
void *malloc(size_t size) { count++; return __libc_malloc(size); }
void *realloc(void *place, size_t size) { count++; return __libc_realloc(place, size); }
void *calloc(size_t number, size_t size) { count++; return __libc_calloc(number, size); }
__attribute__((destructor)) static void tell(void) { fprintf(stderr, "%lu\n", count); }
