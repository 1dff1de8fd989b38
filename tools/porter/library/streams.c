#include <stdio.h>

int input(void);
void output(int value);

int getchar(void) { return input(); }
int putchar(int c) {
  output((unsigned char)c);
  return (unsigned char)c;
}
int puts(const char *text) {
  while (*text)
    putchar(*text++);
  putchar('\n');
  return 0;
}
