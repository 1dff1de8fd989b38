#pragma compartment Main
#pragma import Env output
#pragma import Zip unpack
#pragma import Zip word
#pragma import Log note
#pragma import Log total
void output(int value);
int unpack(void);
int word(int at);
void note(int length);
int total(void);
int main(void) {
  int length;
  int at;
  int value;
  length = unpack();
  note(length);
  for (at = 0; at < length && at < 8192; at = at + 4) {
    value = word(at);
    output(value);
  }
  value = total();
  output(value);
  return 0;
}
#pragma compartment Zip
#pragma import Env input
#pragma export unpack
#pragma export word
int input(void);
int unpack(void) { while (1) { } }
int word(int at) { while (1) { } }
#pragma compartment Log
#pragma export note
#pragma export total
int messages;
int bytes;
int failures;
void note(int length) {
  if (length < 0 || length > 8192 || messages > 99) {
    failures = 1;
  } else {
    messages = messages + 1;
    bytes = bytes + length;
  }
}
int total(void) {
  if (failures != 0) {
    return -1;
  }
  return bytes;
}
