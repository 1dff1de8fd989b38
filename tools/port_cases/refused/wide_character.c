/* refused at line 3: a wide character */
int main(void) {
  return L'a' != 97;
}
