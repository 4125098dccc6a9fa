/* The few functions of the C library that this folder's programs use, as on x86-64 Linux: see link.sh. */
#ifndef KEP_STDLIB_H
#define KEP_STDLIB_H

#include <stddef.h>

#define EXIT_SUCCESS 0
#define EXIT_FAILURE 1

void *malloc(size_t size);
void *calloc(size_t count, size_t size);
void *realloc(void *at, size_t size);
void free(void *at);
void exit(int status) __attribute__((noreturn));
void abort(void) __attribute__((noreturn));
int atoi(const char *text);
unsigned long strtoul(const char *text, char **end, int base);

#endif
