/* Many parameters, recursion, exit from within, names that are reserved in the target. */
#include <stdlib.h>
void output(int value);
static int bt_n = 3, free_, value;
static int eleven(int a, int b, int c, int d, int e, int f, int g, int h, int i, char j, unsigned k) {
  if (a > 0)
    return eleven(a - 1, b, c, d, e, f, g, h, i + 1, j, k + 1) + a;
  return a + b * 2 + c * 3 + d * 5 + e * 7 + f * 11 + g * 13 + h * 17 + i * 19 + j * 23 + k * 29;
}
static int deep(int n) {
  if (n == 0) {
    output(99);
    exit(7);
  }
  return deep(n - 1) + 1;
}
static int old(a, b)
  char a;
  int b;
{
  return a * b;
}
int main(void) {
  int to = 1, i = 2, from = 4;
  {
    int i = 5;
    to += i;
    {
      extern int shared;
      int bt_n = shared;
      to += bt_n;
    }
  }
  output(to + i + from + bt_n);
  output(eleven(3, 1, 2, 3, 4, 5, 6, 7, 8, -9, 10));
  output(old(-3, 5));
  output(deep(4) ? 1 : 2);
  output(-1);
  return 0;
}
int shared = 1000;
