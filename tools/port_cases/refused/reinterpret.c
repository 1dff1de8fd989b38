/* refused at line 4: their cells differ */
int main(void) {
  int i = 1;
  char *p = (char *)&i;
  return *p;
}
