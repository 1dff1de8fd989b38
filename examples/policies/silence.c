// A till that writes the sum after each coin. A coin below 0 is an error: -1 is written, and from then on nothing.
// The input is pairs of a place and a coin, up to a place below 0.
#pragma compartment Till
#pragma import Env input
#pragma import Env output
int input(void);
void output(int v);
int coins[3];
int failed;

int main(void) {
  int place;
  int coin;
  int sum = 0;
  place = input();
  while (place >= 0) {
    coin = input();
    coins[place] = coin;
    if (coin < 0) {
      output(-1);
      failed = 1;
    }
    if (!failed) {
      sum = (sum + coin) & 65535;
      output(sum);
    }
    place = input();
  }
  return 0;
}
