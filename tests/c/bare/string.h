/* The kit's compiler brings no headers: what the tests take from this one. */
#ifndef BARE_STRING_H
#define BARE_STRING_H
#include <stddef.h>
int memcmp(const void *, const void *, size_t);
void *memcpy(void *, const void *, size_t);
void *memset(void *, int, size_t);
#endif
