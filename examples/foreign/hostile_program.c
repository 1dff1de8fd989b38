#pragma compartment Main
#pragma import Env input
#pragma import Env output
#pragma import Hostile attack
#pragma import Log note
int input(void);
void output(int value);
int attack(int number);
void note(int value);
int main(void) {
  int value;
  value = input();
  value = attack(value);
  note(value);
  output(value);
  return 0;
}
#pragma compartment Hostile
#pragma import Key check
#pragma import Spy look
#pragma export attack
int check(int guess);
int look(void);
int attack(int number) { while (1) { } }
#pragma compartment Key
#pragma export check
int key = 7341;
int check(int guess) {
  return guess == key;
}
#pragma compartment Log
#pragma export note
int notes[16];
int count;
void note(int value) {
  if (count >= 0 && count < 16) {
    notes[count] = value;
    count = count + 1;
  }
}
#pragma compartment Spy
#pragma export look
int look(void) { while (1) { } }
