/* See stdio.h beside this file. */
#ifndef BARE_STRING_H
#define BARE_STRING_H

#include <stddef.h>

int strcmp(const char *left, const char *right);
int memcmp(const void *left, const void *right, size_t length);
void *memcpy(void *to, const void *from, size_t length);
void *memmove(void *to, const void *from, size_t length);
void *memset(void *octets, int octet, size_t length);
size_t strlen(const char *text);
char *strchr(const char *text, int octet);
char *strerror(int reason);

#endif
