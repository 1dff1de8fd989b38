/* refused at line 3: variable length */
int f(int n) {
  int a[n];
  a[0] = 1;
  return a[0];
}
int main(void) { return f(3); }
