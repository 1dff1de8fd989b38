/* refused at line 4: a conversion from pointer to int to unsigned int */
static int x;
int main(void) {
  return (unsigned)&x == 0;
}
