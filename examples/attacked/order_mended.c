// Box keeps a number in a block that `prepare` makes.
// `keep` does nothing before.
#pragma compartment Main
#pragma import Box prepare
#pragma import Box keep
#pragma import Box kept
#pragma import Env output
void prepare(void);
void keep(int number);
int kept(void);
void output(int v);

int main(void) {
  int number;
  prepare();
  keep(7);
  number = kept();
  output(number);
  return 0;
}
#pragma compartment Box
#pragma export prepare
#pragma export keep
#pragma export kept
int *block;

void prepare(void) {
  if (block == 0) {
    block = malloc(sizeof(int));
    if (block != 0) {
      *block = 0;
    }
  }
}

void keep(int number) {
  if (block != 0) {
    *block = number;
  }
}

int kept(void) {
  if (block == 0) {
    return 0;
  }
  return *block;
}
