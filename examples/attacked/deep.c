// Main answers what Guest asks, also while Guest is asked.
// The weakness: nothing keeps Main's stack from becoming full.
#pragma compartment Main
#pragma import Guest ask
#pragma export answer
int ask(int depth);

int answer(int depth) {
  int notes[40];
  notes[0] = depth;
  return ask(notes[0]);
}

int main(void) {
  int last;
  last = ask(0);
  return last;
}
#pragma compartment Guest
#pragma export ask
#pragma import Main answer
int answer(int depth);

int ask(int depth) {
  if (depth == 3) {
    return depth;
  }
  return answer(depth + 1);
}
