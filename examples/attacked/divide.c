// Shop shares a price among the people whom Host counts.
// The weakness: Host may count nobody.
#pragma compartment Shop
#pragma import Host people
#pragma import Env output
int people(void);
void output(int v);

int main(void) {
  int count;
  count = people();
  if (count < 0) {
    return 1;
  }
  output(1200 / count);
  return 0;
}
#pragma compartment Host
#pragma export people

int people(void) {
  return 4;
}
