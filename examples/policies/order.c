// A clerk who opens a vault before taking from it, and closes it at the end.
// An order is pairs of a field and what it holds, up to field 0: 1 is how much to take, 2 from which shelf.
#pragma compartment Clerk
#pragma import Vault open
#pragma import Vault take
#pragma import Vault close
#pragma import Env input
void open(void);
int take(int shelf, int wanted);
void close(void);
int input(void);
int fields[3];
int opened;

void read(void) {
  int field;
  field = input();
  while (field != 0) {
    fields[field] = input();
    field = input();
  }
}

int main(void) {
  int got;
  read();
  while (fields[1] != 0) {
    if (!opened) {
      open();
      opened = 1;
    }
    got = take(fields[2], fields[1]);
    fields[1] = 0;
    read();
  }
  close();
  return 0;
}
#pragma compartment Vault
#pragma export open
#pragma export take
#pragma export close
int shelves[2] = {100, 20};
int is_open;

void open(void) {
  is_open = 1;
}

int take(int shelf, int wanted) {
  if (shelf < 0 || shelf > 1 || wanted < 0 || wanted > shelves[shelf]) {
    return 0;
  }
  shelves[shelf] = shelves[shelf] - wanted;
  return wanted;
}

void close(void) {
  is_open = 0;
}
