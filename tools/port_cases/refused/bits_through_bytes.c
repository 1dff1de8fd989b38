/* refused at line 5: their cells differ */
struct s { int a : 3; int b : 7; } s;
int main(void) {
  s.a = 1;
  return *(char *)&s;
}
