#ifndef STDIO_H
#define STDIO_H

#include <stddef.h>

typedef struct _IO_FILE FILE;
extern FILE *stdin, *stdout, *stderr;

size_t fread(void *to, size_t size, size_t count, FILE *file);
int printf(const char *format, ...);
int fprintf(FILE *file, const char *format, ...);
int putchar(int character);
int fflush(FILE *file);
int ferror(FILE *file);

#endif
