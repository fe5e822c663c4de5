/* What this repository's C takes from the C library, for a compiler that comes without the library's headers
 * (-ffreestanding -isystem .ci/by-kit/bare), as glibc for x86-64 has it. Other builds never look here. */
#ifndef BARE_STDIO_H
#define BARE_STDIO_H

#include <stddef.h>

typedef struct _IO_FILE FILE;
extern FILE *stdin, *stdout, *stderr;
#define EOF (-1)
#define _IOFBF 0

FILE *fopen(const char *name, const char *mode);
int fileno(FILE *stream);
int getc(FILE *stream);
int ungetc(int octet, FILE *stream);
int puts(const char *text);
int fputc(int octet, FILE *stream);
int fputs(const char *text, FILE *stream);
size_t fread(void *octets, size_t size, size_t count, FILE *stream);
size_t fwrite(const void *octets, size_t size, size_t count, FILE *stream);
int printf(const char *format, ...);
int fprintf(FILE *stream, const char *format, ...);
void perror(const char *what);
int setvbuf(FILE *stream, char *room, int mode, size_t size);
int fflush(FILE *stream);
int fclose(FILE *stream);
int ferror(FILE *stream);

#endif
