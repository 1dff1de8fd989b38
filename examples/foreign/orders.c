/* The section Json of account.c: cJSON, over text that comes as its length and its bytes. */
#include <stdlib.h>
#include <string.h>
#include "cJSON.h"
#include "section.h"

static char text[4096], *printed;
static cJSON *tree;

int parse(void) {
  unsigned length = 0;
  for (unsigned left = (unsigned)input(); left > 0; left--) {
    int byte = input();
    if (length < sizeof text - 1) text[length++] = (char)byte;
  }
  tree = cJSON_Parse(text);
  if (!tree) return -1;
  printed = cJSON_Print(tree);
  return printed ? (int)strlen(printed) : -2;
}

int orders(void) { return cJSON_IsArray(tree) ? cJSON_GetArraySize(tree) : 0; }

int amount(int order) {
  cJSON *found = cJSON_GetObjectItemCaseSensitive(cJSON_GetArrayItem(tree, order), "amount");
  return cJSON_IsNumber(found) ? found->valueint : 0;
}

int word(int at) {
  int value = 0, length = printed ? (int)strlen(printed) : 0;
  for (int place = at; place < at + 4; place++) {
    value = value * 256 + (place >= 0 && place < length ? printed[place] : 0);
  }
  return value;
}
