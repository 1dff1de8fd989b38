#pragma compartment Main
#pragma import Env input
#pragma import Env output
#pragma import Json parse
#pragma import Json orders
#pragma import Json amount
#pragma import Json word
#pragma import Account pay
int input(void);
void output(int value);
int parse(void);
int orders(void);
int amount(int order);
int word(int at);
int pay(int amount);
int main(void) {
  int prints;
  int length;
  int count;
  int at;
  int value;
  prints = input();
  length = parse();
  if (length < 0) {
    output(length);
  } else if (prints != 0) {
    for (at = 0; at < length && at < 8192; at = at + 4) {
      value = word(at);
      output(value);
    }
  } else {
    count = orders();
    for (at = 0; at < count && at < 100; at++) {
      value = amount(at);
      value = pay(value);
      output(value);
    }
  }
  return 0;
}
#pragma compartment Json
#pragma import Env input
#pragma export parse
#pragma export orders
#pragma export amount
#pragma export word
int input(void);
int parse(void) { while (1) { } }
int orders(void) { while (1) { } }
int amount(int order) { while (1) { } }
int word(int at) { while (1) { } }
#pragma compartment Account
#pragma export pay
int balance = 1000;
int pay(int amount) {
  if (amount > 0 && amount <= balance) {
    balance = balance - amount;
  }
  return balance;
}
