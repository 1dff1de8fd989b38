#pragma compartment Main
#pragma import Env output
#pragma import Block unpack
#pragma import Block word
#pragma import Key check
void output(int value);
int unpack(void);
int word(int at);
int check(int guess);
int main(void) {
  int length;
  int at;
  int value;
  length = unpack();
  for (at = 0; at < length && at < 8192; at = at + 4) {
    value = word(at);
    output(value);
  }
  value = word(0);
  value = check(value);
  output(value);
  return 0;
}
#pragma compartment Block
#pragma import Env input
#pragma export unpack
#pragma export word
int input(void);
int unpack(void) { while (1) { } }
int word(int at) { while (1) { } }
#pragma compartment Key
#pragma export check
int key = 1802005297;
int check(int guess) {
  return guess == key;
}
