/* The C library's functions that the two programs call, for a compiler that brings no headers, as the kit's. */
#ifndef CALLS_H
#define CALLS_H

#include <stddef.h>
#include <stdint.h>

typedef struct calls_file calls_file;
calls_file *fopen(const char *path, const char *mode);
size_t fread(void *to, size_t size, size_t count, calls_file *file);
int fclose(calls_file *file);
int printf(const char *format, ...);
int sprintf(char *to, const char *format, ...);
int memcmp(const void *a, const void *b, size_t n);
void *memset(void *to, int byte, size_t n);
void *memcpy(void *to, const void *from, size_t n);

typedef struct {
    long seconds, nanoseconds;
} calls_time;
int clock_gettime(int clock, calls_time *time);

#endif
