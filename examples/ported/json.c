/* Parses its input with jsmn, and outputs the tokens. A number below 1 ends the input. */
#include "jsmn.h"
void output(int value);
int input(void);

static char text[400];
static jsmntok_t tokens[20];

int main(void) {
  jsmn_parser parser;
  int n = 0, c, i, count;
  while (n < 400 && (c = input()) > 0)
    text[n++] = c;
  jsmn_init(&parser);
  count = jsmn_parse(&parser, text, n, tokens, 20);
  output(count);
  for (i = 0; i < count; i++) {
    output(tokens[i].type);
    output(tokens[i].start);
    output(tokens[i].end);
    output(tokens[i].size);
  }
  return 0;
}
