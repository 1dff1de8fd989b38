/* The functions of the library. */
#include <assert.h>
#include <ctype.h>
#include <stdlib.h>
#include <string.h>
void output(int value);

static int sign(int n) { return (n > 0) - (n < 0); }
static int compare(const void *a, const void *b) { return *(const int *)a - *(const int *)b; }

int main(void) {
  char a[20] = "compart", b[20], *p;
  int numbers[6] = {5, -3, 9, 0, 2, -8}, i, *more;
  output(strlen(a));
  strcpy(b, a);
  strcat(b, "ment");
  output(strlen(b));
  output(sign(strcmp(a, b)));
  output(sign(strncmp(a, b, 7)));
  output(strchr(b, 'm') - b);
  output(strrchr(b, 'm') - b);
  output(strstr(b, "men") - b);
  output(strspn(b, "moc") * 10 + strcspn(b, "n"));
  output(memcmp(a, b, 7));
  p = memchr(b, 't', 11);
  output(p - b);
  memset(a, 'z', 3);
  output(a[2] + a[3]);
  memmove(a + 1, a, 6);
  output(a[3] + a[4]);
  output(abs(-4) + atoi("  -42x"));
  for (i = 0; i < 128; i += 7)
    output(!!isalpha(i) + 2 * !!isdigit(i) + 4 * !!isspace(i) + 8 * !!ispunct(i) + 256 * tolower(i));
  qsort(numbers, 6, sizeof(int), compare);
  for (i = 0; i < 6; i++)
    output(numbers[i]);
  memcpy(numbers, numbers + 3, i + 1);
  output(numbers[0] + numbers[1]);
  more = calloc(3, sizeof(int));
  assert(more);
  output(more[2]);
  more[1] = 4;
  free(more);
  exit(3);
}
