/* refused at line 8: their cells differ */
static int x;
static char y;
static void *keep(void *p) { return p; }
int main(void) {
  int *p = keep(&x);
  *p = 3;
  char *q = keep(&y);
  return *q;
}
