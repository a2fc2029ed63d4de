#pragma once
#include <stddef.h>
typedef struct file FILE;
extern FILE *stdin, *stdout, *stderr;
FILE *fopen(const char *name, const char *mode);
int fclose(FILE *file);
size_t fread(void *into, size_t size, size_t count, FILE *file);
size_t fwrite(const void *from, size_t size, size_t count, FILE *file);
int ferror(FILE *file);
int fflush(FILE *file);
int fputs(const char *words, FILE *file);
int putc(int byte, FILE *file);
int putchar(int byte);
int puts(const char *words);
int printf(const char *form, ...);
int fprintf(FILE *file, const char *form, ...);
int snprintf(char *into, size_t size, const char *form, ...);
