/* refused at line 6: asm */
static int count;
static int *next(void) { static int cells[2]; return &cells[count++]; }
int main(void) {
  __asm__ volatile("" : "+m"(count));
  __asm__("" : "+r"(*next()));
  return count;
}
