#pragma compartment Main
#pragma import Env output
#pragma import Json parse
#pragma import Json kind
#pragma import Json number
#pragma import Key check
void output(int value);
int parse(void);
int kind(int token);
int number(int token);
int check(int guess);
int main(void) {
  int found;
  int token;
  int value;
  found = parse();
  output(found);
  for (token = 0; token < found && token < 16; token++) {
    value = kind(token);
    output(value);
    if (value == 4) {
      value = number(token);
      value = check(value);
      output(value);
    }
  }
  return 0;
}
#pragma compartment Json
#pragma import Env input
#pragma export parse
#pragma export kind
#pragma export number
int input(void);
int parse(void) { while (1) { } }
int kind(int token) { while (1) { } }
int number(int token) { while (1) { } }
#pragma compartment Key
#pragma export check
int key = 7341;
int check(int guess) {
  return guess == key;
}
