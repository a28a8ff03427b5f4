/* The kit's compiler brings no headers: what the tests take from this one. */
#ifndef BARE_STDIO_H
#define BARE_STDIO_H
int printf(const char *, ...);
#endif
