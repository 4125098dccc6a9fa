/* The few functions of the C library that this folder's programs use, as on x86-64 Linux: see link.sh. */
#ifndef KEP_STDIO_H
#define KEP_STDIO_H

#include <stddef.h>

typedef struct _IO_FILE FILE;
extern FILE *stdin;
extern FILE *stdout;
extern FILE *stderr;
#define EOF (-1)

size_t fread(void *to, size_t size, size_t count, FILE *from);
size_t fwrite(const void *from, size_t size, size_t count, FILE *to);
int fflush(FILE *file);
int ferror(FILE *file);
int feof(FILE *file);
int fclose(FILE *file);
FILE *fopen(const char *path, const char *mode);
int getchar(void);
int fgetc(FILE *file);
char *fgets(char *to, int size, FILE *file);
int putchar(int byte);
int puts(const char *text);
int fputs(const char *text, FILE *file);
int printf(const char *form, ...) __attribute__((format(printf, 1, 2)));
int fprintf(FILE *file, const char *form, ...) __attribute__((format(printf, 2, 3)));
int snprintf(char *to, size_t size, const char *form, ...) __attribute__((format(printf, 3, 4)));

#endif
