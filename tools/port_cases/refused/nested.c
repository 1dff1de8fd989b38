/* refused at line 3: no C11 */
int main(void) {
  int inner(int a) { return a; }
  return inner(0);
}
