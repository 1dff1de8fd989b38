/* refused at line 3: attribute alias */
static int a = 3;
extern int b __attribute__((alias("a")));
int main(void) { return b; }
