#pragma once
#include <stddef.h>
int strcmp(const char *one, const char *other);
int strncmp(const char *one, const char *other, size_t most);
char *strerror(int number);
int memcmp(const void *one, const void *other, size_t size);
void *memset(void *into, int byte, size_t size);
void *memcpy(void *into, const void *from, size_t size);
size_t strlen(const char *words);
char *strchr(const char *words, int byte);
