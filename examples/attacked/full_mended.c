// Stack keeps up to 20 numbers.
// `push` refuses the 21st.
#pragma compartment Main
#pragma import Stack push
#pragma import Stack pop
#pragma import Env output
int push(int number);
int pop(void);
void output(int v);

int main(void) {
  int number;
  number = push(4);
  number = pop();
  output(number);
  return 0;
}
#pragma compartment Stack
#pragma export push
#pragma export pop
int numbers[20];
int size;

int push(int number) {
  if (size >= 20) {
    return 0;
  }
  numbers[size] = number;
  size++;
  return 1;
}

int pop(void) {
  if (size == 0) {
    return 0;
  }
  size--;
  return numbers[size];
}
