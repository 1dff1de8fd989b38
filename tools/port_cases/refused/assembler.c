/* refused at line 3: asm */
int main(void) {
  asm("nop");
  return 0;
}
