#pragma compartment Main
#pragma import Net put
int put(int, int);
int main(void) {
  int *p;
  p = 7;
  return put(1, 2);
}
#pragma compartment Net
#pragma export put
int put(int i, int v) { return i + v; }
