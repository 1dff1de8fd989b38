// Main keeps how often each of four kinds came. Reader says which kind comes next, and -1 at the end.
// The weakness: Main indexes by what Reader says.
#pragma compartment Main
#pragma import Reader next
#pragma import Env output
int next(void);
void output(int v);
int counts[4];

int main(void) {
  int kind;
  kind = next();
  while (kind != -1) {
    counts[kind] = counts[kind] + 1 & 255;
    kind = next();
  }
  output(counts[0]);
  return 0;
}
#pragma compartment Reader
#pragma export next
#pragma import Env input
int input(void);

int next(void) {
  int kind;
  kind = input();
  if (kind < 1 || kind > 4) {
    return -1;
  }
  return kind - 1;
}
