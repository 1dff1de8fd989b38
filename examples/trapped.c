// No event shows the fault of Main: run it with `explain --trapped`.
#pragma compartment Main
#pragma import Env output
void output(int v);
int main(void) {
  int *p;
  output(1);
  p = 0;
  *p = 1;
  return 0;
}
