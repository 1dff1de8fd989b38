// A device that is set up, reads a key, and signs. Once it has the key nothing is to leave it.
#pragma compartment Device
#pragma import Net set_up
#pragma import Net keep
#pragma import Keys load
#pragma import Keys sign
void set_up(void);
void keep(int v);
void load(void);
int sign(int message);

int main(void) {
  int signature;
  set_up();
  load();
  signature = sign(7);
  keep(signature);
  return 0;
}
#pragma compartment Keys
#pragma export load
#pragma export sign
#pragma import Env input
int input(void);
int key;

void load(void) {
  key = input();
}

int sign(int message) {
  return message ^ key;
}
#pragma compartment Net
#pragma export set_up
#pragma export keep
#pragma import Env input
#pragma import Env output
int input(void);
void output(int v);
int settings[4];
int debug;
int kept;

void set_up(void) {
  int field;
  field = input();
  while (field >= 0) {
    settings[field] = input();
    field = input();
  }
  output(settings[0]);
}

void keep(int v) {
  kept = v;
  if (debug) {
    output(v);
  }
}
