// Desk serves who has said hello with version 3, and then logged in with a number that is a multiple of 17.
// The weakness: `read` looks at nothing once somebody is logged in.
#pragma compartment Main
#pragma import Desk hello
#pragma import Desk log_in
#pragma import Desk read
#pragma import Env output
int hello(int version);
int log_in(int number);
int read(int page);
void output(int v);

int main(void) {
  int answer;
  answer = hello(3);
  answer = log_in(340);
  answer = read(2);
  output(answer);
  return 0;
}
#pragma compartment Desk
#pragma export hello
#pragma export log_in
#pragma export read
int state;
int pages[5] = {10, 11, 12, 13, 14};

int hello(int version) {
  if (version != 3 || state != 0) {
    return 0;
  }
  state = 1;
  return 1;
}

int log_in(int number) {
  if (state != 1) {
    return 0;
  }
  if (number <= 0 || number % 17 != 0) {
    state = 0;
    return 0;
  }
  state = 2;
  return 1;
}

int read(int page) {
  if (state != 2) {
    return 0;
  }
  return pages[page];
}
