#pragma compartment Main
#pragma import Env output
void output(int v);
int main(void) {
  int n = 0;
  while (1) {
    output(n);
    n = (n + 1) % 3;
  }
}
