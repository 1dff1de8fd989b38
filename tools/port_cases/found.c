/* Answers that were wrong once: a flag of a loop that its body used, constants of an enumeration that fit no int,
   effects in arguments that gcc's own functions ignore, a null that is written out. */
void output(int value);
enum large { ZERO, HIGH = 0x80000000, MOST = 0xffffffff };
enum negative { LOW = -2147483647 - 1, MINUS = -1, PLUS = 0x7fffffff };
struct pair { int a, b[3]; };
static int calls;
static int two(int x, int y) { calls++; return x * 10 + y; }
static int rounds(unsigned long long p, int q, unsigned short *n) {
  int count = 0;
  for (p = 0; p <= 4; p += 1) {
    count += two(*n ^= q, count & 3) > 20 ? 1 : 2;
    if (q) {
      q = two(q, 1) - 21;
      continue;
    }
    if (p > 2)
      break;
    count = two(count, *n) & 1023;
  }
  return count;
}
static int repeats(int n, unsigned short *at) {
  int sum = 0;
  do {
    sum += two(*at ^= n, sum & 7) > 9 ? two(sum & 15, 1) : n++;
    if (sum & 1)
      continue;
    sum += two(n, *at & 3);
  } while (two(n++, sum & 1) < 60 && sum < 5000);
  return sum;
}
static int never(int c) {
  if (c) {
    *(char *)0 = 1;
    ((struct pair *)0)->a = 2;
    ((int *)0)[3] = 1;
    ((struct pair *)0)->b[1] = 3;
    return *(short *)0;
  }
  return 5;
}
int main(void) {
  unsigned short n = 7;
  int z = 3, *p = &z, t[4] = {4, 5, 6, 7};
  output(rounds(9, 2, &n));
  output(repeats(1, &n));
  output(calls);
  output(MOST > 0);
  output(HIGH > -2);
  output(ZERO - 1 < 0);
  output((enum large)-1 > 0);
  output(LOW < 0 && MINUS < PLUS);
  output((enum negative)-1 > 0);
  if (__builtin_expect(t[0], calls++) == 4)
    output(calls);
  __builtin_prefetch(p = &t[2], 0, 0);
  __builtin_prefetch(&t[z++]);
  output(*p + z);
  output(never(z == 3));
  return 0;
}
