#include <stdlib.h>
#include <ctype.h>

static unsigned int next = 1;

int abs(int n) { return n < 0 ? -n : n; }
long labs(long n) { return n < 0 ? -n : n; }
int rand(void) {
  next = next * 1103515245u + 12345u;
  return next >> 1;
}
void srand(unsigned int seed) { next = seed; }
int atoi(const char *text) {
  int n = 0, sign = 1;
  while (isspace(*text))
    text++;
  if (*text == '-' || *text == '+')
    sign = *text++ == '-' ? -1 : 1;
  while (isdigit(*text))
    n = n * 10 + sign * (*text++ - '0');
  return n;
}
