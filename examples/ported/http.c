/* Parses a request with picohttpparser, and outputs where its parts lie. A negative number ends the input. */
#include "picohttpparser.h"
int input(void);
void output(int value);

static char text[600];
static struct phr_header headers[4];

int main(void) {
  const char *method, *path;
  size_t method_length, path_length, count = 4, n = 0, i;
  int minor = -9, result, c;
  while (n < 600 && (c = input()) >= 0)
    text[n++] = c;
  result = phr_parse_request(text, n, &method, &method_length, &path, &path_length, &minor, headers, &count, 0);
  output(result);
  if (result > 0) {
    output(method_length);
    output(path - text);
    output(path_length);
    output(minor);
    output(count);
    for (i = 0; i < count; i++) {
      output(headers[i].name ? headers[i].name - text : -1);
      output(headers[i].name_len);
      output(headers[i].value - text);
      output(headers[i].value_len);
    }
  }
  return 0;
}
