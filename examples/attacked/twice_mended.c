// Main copies a record of at most six numbers from Source.
// Main asks for the length once.
#pragma compartment Main
#pragma import Source length
#pragma import Source item
#pragma import Env output
int length(void);
int item(int number);
void output(int v);
int copy[6];

int main(void) {
  int count;
  int number;
  count = length();
  if (count < 0 || count > 6) {
    return 1;
  }
  for (number = 0; number < count; number++) {
    copy[number] = item(number);
  }
  output(copy[0]);
  return 0;
}
#pragma compartment Source
#pragma export length
#pragma export item
int record[3] = {5, 6, 7};

int length(void) {
  return 3;
}

int item(int number) {
  if (number < 0 || number >= 3) {
    return 0;
  }
  return record[number];
}
