/* Packed structures, offsets of members, and addresses of the first member of null. */
void output(int);
struct a { char c; int x; short s; } __attribute__((packed));
struct __attribute__((packed)) b { char c; long long x; struct a in[3]; short s; };
typedef struct { int p : 3; unsigned q : 31; char r; int t : 20; } __attribute__ ((__packed__)) T;
struct n { char c; int x; struct __attribute__((packed)) { char d; int e; } in; };
#pragma pack(push, 1)
struct p1 { char c; int x; union { short u; int v; } w; int f : 7; unsigned g : 30; };
#pragma pack(pop)
#pragma pack(push)
#pragma pack(1)
struct p2 { char c; int x; int f : 7; unsigned g : 30; int : 0; char z; };
#pragma pack(pop)
struct q1 { char c; int x; };
#pragma pack(1)
static struct { char c; int x; } v = { 1, 2 };
struct in { char a; struct q1 b; };
static int inner(void *at) { return sizeof(struct { char c; int x; }) + sizeof(struct tagged { char c; short x; }); }
static struct q1 made(c) int c; { struct q1 it = { 1, 2 }; return (struct q1){ c, it.x }; }
#pragma pack()
union un { int a; char b[5]; } __attribute__((packed));
struct q2 { char c; int x; };
struct m { int *f; int g[2]; };
static int first(struct m *a) { return (&a->f != 0) + 2 * (&a->f == 0) + 4 * !&a->f; }
static int flag(struct m *a) { if (&a->f) return 1; return 0; }
static int second(struct m *a) { if (a->g) return 1; return 0; }
struct arr { char b[10]; } ar;
static int third(struct arr *a) { if (&a->b) return 1; return !a->b; }
int main(void) {
  struct m m; struct a a = {1, 2, 3}; T t = {1, 2, 3, 4};
  output(sizeof(struct a)); output(sizeof(struct b)); output(sizeof(T)); output(sizeof(struct n));
  output(sizeof(struct p1)); output(sizeof(struct p2)); output(sizeof(struct q1)); output(sizeof v); output(sizeof(struct q2));
  output(sizeof(struct in)); output(sizeof(union un));
  output(__builtin_offsetof(struct b, s)); output(__builtin_offsetof(struct b, in[2].x)); output(__builtin_offsetof(struct p1, w.v)); output(__builtin_offsetof(struct p1, w));
  output(first(&m)); output(first(0)); output(flag(&m)); output(flag(0)); output(second(&m)); output(third(&ar)); output(third(0));
  output(a.x + t.q + v.x + t.t);
  output(inner(0)); output(made(5).c);
  return 0;
}
