/* The section Json of key.c: jsmn (Debian's libjsmn-dev), over text that it reads to byte 0. */
#define JSMN_PARENT_LINKS
#include "jsmn.h"
#include "section.h"

/* The tokens come after the text, so that a token before the first one lies in the text. */
static struct {
  char text[240];
  jsmntok_t tokens[16];
} here;
static int found;

int parse(void) {
  jsmn_parser parser;
  unsigned length = 0;
  for (int byte = input(); byte != 0; byte = input()) {
    if (length < sizeof here.text) here.text[length++] = (char)byte;
  }
  jsmn_init(&parser);
  found = jsmn_parse(&parser, here.text, length, here.tokens, 16);
  return found;
}

int kind(int token) { return token >= 0 && token < found ? (int)here.tokens[token].type : 0; }

int number(int token) {
  int value = 0;
  if (kind(token) != JSMN_PRIMITIVE) return 0;
  for (int at = here.tokens[token].start; at < here.tokens[token].end; at++) value = 10 * value + here.text[at] - '0';
  return value;
}
