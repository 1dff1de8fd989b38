/* long long as two words. */
void output(int value);
static void show(long long v) {
  output((int)v);
  output((int)(v >> 32));
}
static unsigned long long mix(unsigned long long a, int b) { return a * 31 + b; }
static long long values[3] = {-1, 0x123456789abLL, 1ULL << 63};
struct pair { long long w; int n; } pair = {-5, 3};

int main(void) {
  long long a = -7, b = 3;
  unsigned long long u = 0xfedcba9876543210ULL;
  int n = 33, i;
  show(a / b);
  show(a % b);
  show(a * b - 1);
  show(u / 1000003);
  show(u % 1000003);
  show(u >> n);
  show(a << n);
  show(a >> 1);
  show(u >> 4);
  show(u << 4);
  for (i = 0; i < 70; i += 9)
    if (i < 64)
      show(values[1] << i >> 3);
  show(values[0] & values[1]);
  show(values[2] ^ ~values[1]);
  show(mix(u, -3));
  output(a < b);
  output(u > 5);
  output(a <= -7);
  output(values[2] < values[0]);
  output(a == -7 && u != 0);
  show(a++ + --b);
  show(a);
  a += 0xffffffffLL;
  show(a);
  pair.w += pair.n;
  show(pair.w);
  show(-a);
  show((unsigned char)a + (short)u);
  output(!a + !!b);
  output(a ? 1 : 2);
  show(n ? a : n);
  switch (a & 3) { case 0: output(10); break; case 1: output(11); break; default: output(12); }
  show((long long)(unsigned)n * -1);
  return 0;
}
