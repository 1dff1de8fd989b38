/* refused at line 5: no whole number */
#include <string.h>
static struct { int n; } a[4], b[4];
static int f(void) { return a[0].n; }
int main(void) { memcpy(a, a + 1, 6); return f() + b[0].n; }
