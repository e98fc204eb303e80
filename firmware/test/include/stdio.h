/* As much of C's input and output as the tests' programs use, by semihosting (bare.c). */
#ifndef STDIO_H
#define STDIO_H

#include <stddef.h>

typedef struct file FILE;
extern FILE *const stdin, *const stdout, *const stderr;
enum { _IOFBF };

#define printf(...) fprintf(stdout, __VA_ARGS__)
int fprintf(FILE *file, const char *form, ...);
int snprintf(char *to, size_t room, const char *form, ...);
int sprintf(char *to, const char *form, ...);
int sscanf(const char *from, const char *form, ...);
int fputs(const char *text, FILE *file);
int fputc(int c, FILE *file);
int setvbuf(FILE *file, char *buffer, int mode, size_t size);
int fflush(FILE *file);
size_t fread(void *to, size_t size, size_t number, FILE *file);
size_t fwrite(const void *from, size_t size, size_t number, FILE *file);
void perror(const char *what);

#endif
