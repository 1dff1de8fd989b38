/* refused at line 6: an initialiser of a structure without members */
struct empty {};
struct holder { struct empty first; };
static struct empty made(void) { struct empty it; return it; }
int main(void) {
  struct holder it = (struct holder){.first = made()};
  return sizeof it;
}
