// Till adds up what Counter says it has counted, three times.
// A drawer has less than 100,000 coins.
#pragma compartment Till
#pragma import Counter counted
#pragma import Env output
int counted(int drawer);
void output(int v);

int main(void) {
  int drawer;
  int coins;
  int sum = 0;
  for (drawer = 0; drawer < 3; drawer++) {
    coins = counted(drawer);
    if (coins > 0 && coins < 100000) {
      sum = sum + coins;
    }
  }
  output(sum);
  return 0;
}
#pragma compartment Counter
#pragma export counted
#pragma import Env input
int input(void);

int counted(int drawer) {
  int coins;
  coins = input();
  return coins & 1023;
}
