#pragma compartment Main
#pragma import Sum up_to
#pragma import Env output
int up_to(int n);
void output(int v);
int main(void) {
  int r;
  r = up_to(10);
  output(r);
  r = up_to(1000);
  output(r);
  return 0;
}
#pragma compartment Sum
#pragma export up_to
int up_to(int n) {
  int r;
  int terms[200];
  if (n == 0) {
    return 0;
  }
  terms[0] = n;
  r = up_to(n - 1);
  return r + terms[0];
}
