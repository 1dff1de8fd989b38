#ifndef PORT_STDIO_H
#define PORT_STDIO_H
#include <stddef.h>
#define EOF (-1)
int getchar(void);
int putchar(int);
int puts(const char *);
int printf(const char *, ...);
#endif
