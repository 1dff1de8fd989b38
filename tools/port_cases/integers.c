/* Narrow integers, conversions, promotions, bit fields. */
void output(int value);

struct bits {
  unsigned a : 3;
  int b : 5;
  unsigned c : 24;
  int : 0;
  signed char d;
} bits = {5, -3, 0xabcdef, -1};

static char c = -5;
static unsigned char uc = 250;
static short s = -30000;
static unsigned short us = 65000;
static _Bool flag;
enum color { RED, GREEN = 7, BLUE };
typedef unsigned int word;

static int twice(signed char x) { return x * 2; }
static unsigned char low(int x) { return x; }

int main(void) {
  word u = 0xfffffff0u;
  int i = -7;
  enum color color = BLUE;
  output(c + uc);
  output(s + us);
  c += 200;
  output(c);
  uc++;
  uc += 10;
  output(uc);
  s -= 10000;
  output(s);
  us = us << 3;
  output(us);
  flag = 42;
  output(flag);
  flag -= 1;
  output(flag);
  output(twice(c) + low(0x1ff));
  output(color + GREEN + 'A' + '\377');
  output(i / 2 * 10 + i % 2);
  output(i >> 1);
  output((unsigned)i >> 28);
  output(u > 5);
  output((int)u > 5);
  output((int)u < i);
  output((unsigned char)u + (signed char)u);
  output(u / 7 % 1000);
  output(-u);
  output(~u + !u);
  bits.a += 6;
  bits.b -= 20;
  bits.c = bits.c << 1;
  output(bits.a);
  output(bits.b);
  output(bits.c);
  output(bits.d);
  output((bits.b = 17) + (bits.a = 15));
  output(sizeof bits.d + sizeof(struct bits) + sizeof(short[3]));
  output(uc == (unsigned char)-245 ? 1 : -1);
  output((char)300 + (short)70000);
  output(1 ? -1 : 2u);
  output((1 ? -1 : 2u) > 0);
  return 0;
}
