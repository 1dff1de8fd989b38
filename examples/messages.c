// A service that answers messages.
// Main acts on them, Store has the key, Log tells what was done, and Parser reads.
// A message is pairs of a field and what it holds, up to field 0: field 1 is the kind, and field 2 a number.
// Kind 1 asks whether the number is the key. Kind 2 makes it the key, if the sender is trusted. Kind 0 ends.
#pragma compartment Main
#pragma import Parser next_kind
#pragma import Parser number
#pragma import Store is_key
#pragma import Store set_key
#pragma import Log note
int next_kind(void);
int number(void);
int is_key(int guess);
void set_key(int new_key);
void note(int kind, int answer);

int act(int kind) {
  int value;
  int answer = 0;
  value = number();
  if (kind == 1) {
    answer = is_key(value);
  } else if (kind == 2) {
    set_key(value);
  }
  return answer;
}

int main(void) {
  int kind;
  int answer;
  kind = next_kind();
  while (kind != 0) {
    answer = act(kind);
    note(kind, answer);
    kind = next_kind();
  }
  return 0;
}
#pragma compartment Store
#pragma export is_key
#pragma export set_key
int key = 7341;

int is_key(int guess) {
  return guess == key;
}

void set_key(int new_key) {
  key = new_key;
}
#pragma compartment Log
#pragma export note
#pragma import Env output
void output(int v);
int lines;

void note(int kind, int answer) {
  lines = (lines + 1) & 255;
  output(kind * 10 + answer);
}
#pragma compartment Parser
#pragma export next_kind
#pragma export number
#pragma import Env input
int input(void);
int fields[3];
int trusted;

int next_kind(void) {
  int field;
  fields[1] = 0;
  fields[2] = 0;
  field = input();
  while (field != 0) {
    fields[field] = input();
    field = input();
  }
  if (fields[1] == 2 && !trusted) {
    return 9;
  }
  return fields[1];
}

int number(void) {
  return fields[2];
}
