// Main answers what Guest asks, also while Guest is asked.
// Ten answers at most are open at once.
#pragma compartment Main
#pragma import Guest ask
#pragma export answer
int ask(int depth);
int opened;

int answer(int depth) {
  int notes[40];
  int result;
  if (opened == 10) {
    return 0;
  }
  opened++;
  notes[0] = depth;
  result = ask(notes[0]);
  opened--;
  return result;
}

int main(void) {
  int last;
  last = ask(0);
  return last;
}
#pragma compartment Guest
#pragma export ask
#pragma import Main answer
int answer(int depth);

int ask(int depth) {
  if (depth == 3) {
    return depth;
  }
  return answer(depth + 1);
}
