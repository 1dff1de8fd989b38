/* Structures, arrays of arrays, strings, initialisers, statics, pointers to functions. */
#include <string.h>
#include <stdlib.h>
void output(int value);

struct point { short x, y; };
struct shape { char name[6]; struct point corners[2]; struct shape *next; int (*area)(const struct shape *); };
union number { int i; unsigned u; char text[4]; } number = {-7}, others[3];
struct tagged { int kind; union { struct point p; short s; } of; } tagged = {1, {{5, 6}}};
struct b;
struct a { struct b *other; int n; };
struct b { struct a *other; long long m; };

static int area(const struct shape *s) {
  return (s->corners[1].x - s->corners[0].x) * (s->corners[1].y - s->corners[0].y);
}
static int none(const struct shape *s) { return s->name[0]; }
static struct shape shapes[] = {
  {"box", {{1, 2}, {4, 9}}, &shapes[1], area},
  {.next = 0, .name = "dot", .area = none},
};
static const char *const words[] = {"alpha", "be\tta", ""};
static const struct point table[12] = {{1, 2}, {3, 4}, [5] = {-6, 7}, {8}, 9, 10};
static int grid[3][4] = {{1, 2}, {3, 4, 5, 6}, {[3] = 7}};
static int (*operations[])(int, int);
static int plus(int x, int y) { return x + y; }
static int minus(int x, int y) { return x - y; }
static int (*operations[])(int, int) = {plus, minus, 0};

static struct point moved(struct point p, int by) {
  p.x += by;
  return p;
}
static int count(void) {
  static int calls = 40;
  static char last[3] = "ab";
  last[0]++;
  return calls++ + last[0];
}
static int by_value(struct point p) {
  p.y = 100;
  return p.x + p.y;
}

int main(void) {
  struct shape *s, copy;
  struct point p = {3}, *pp = &p, q[2] = {{1, 2}, {3, 4}};
  struct a a = {0, 5};
  struct b b = {&a, 1LL << 40};
  int local[3][2] = {{1, 2}, {3}}, (*row)[2] = local, i, j, sum = 0;
  char text[] = "local";
  void *memory;
  struct point *list;
  number.u >>= 28;
  others[1] = number;
  tagged.of.p.x += others[1].i;
  output(tagged.of.p.x + sizeof number + sizeof tagged);
  a.other = &b;
  output(a.other->other->n + (int)(b.m >> 38));
  for (s = shapes; s; s = s->next)
    output(s->area(s));
  copy = shapes[0];
  copy.name[0] = 'X';
  output(copy.name[0] + shapes[0].name[0] + strlen(words[1]) + words[0][2]);
  output(table[5].x + table[6].x + table[7].y + table[1].y);
  for (i = 0; i < 3; i++)
    for (j = 0; j < 4; j++)
      sum += grid[i][j] * (i + 1);
  output(sum);
  row++;
  output((*row)[0] + row[-1][1] + local[2][1] + sizeof local / sizeof local[0]);
  for (i = 0; operations[i]; i++)
    output(operations[i](10, 3));
  output((operations[0] == plus) + (*operations[1])(1, 1));
  output(moved(p, 4).x + p.x + by_value(p) + p.y);
  *pp = q[1];
  output(p.y);
  q[0] = moved(q[1], 1);
  output(q[0].x);
  output(count() + count());
  output(text[4] + sizeof text);
  memory = malloc(4 * sizeof *list);
  list = memory;
  if (!list)
    abort();
  memset(list, 0, 4 * sizeof(struct point));
  list[2].y = -9;
  memcpy(&list[3], &list[2], sizeof *list);
  memmove(list + 1, list, 3 * sizeof *list);
  output(list[3].y);
  free(list);
  output((int){7} + ((struct point){1, 2}).y);
  return 0;
}
