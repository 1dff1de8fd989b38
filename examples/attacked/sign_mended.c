// Board has eight lamps.
// Both exports look at both ends.
#pragma compartment Main
#pragma import Board light
#pragma import Board is_lit
#pragma import Env output
void light(int lamp);
int is_lit(int lamp);
void output(int v);

int main(void) {
  int answer;
  light(3);
  answer = is_lit(3);
  output(answer);
  return 0;
}
#pragma compartment Board
#pragma export light
#pragma export is_lit
int lamps[8];

void light(int lamp) {
  if (lamp >= 0 && lamp < 8) {
    lamps[lamp] = 1;
  }
}

int is_lit(int lamp) {
  if (lamp < 0 || lamp >= 8) {
    return 0;
  }
  return lamps[lamp];
}
