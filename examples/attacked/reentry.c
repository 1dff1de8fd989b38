// List shows its numbers to Viewer one after another. Viewer may add to the list and clear it.
// The weakness: `show` goes on with an item that Viewer may have cleared while it looked.
#pragma compartment List
#pragma export add
#pragma export clear
#pragma import Viewer see
void see(int number);
struct item {
  int number;
  struct item *next;
};
struct item *first;

void add(int number) {
  struct item *it;
  it = malloc(sizeof(struct item));
  if (it != 0) {
    it->number = number;
    it->next = first;
    first = it;
  }
}

void clear(void) {
  struct item *it;
  while (first != 0) {
    it = first;
    first = it->next;
    free(it);
  }
}

void show(void) {
  struct item *it;
  it = first;
  while (it != 0) {
    see(it->number);
    it = it->next;
  }
}

int main(void) {
  add(1);
  add(2);
  show();
  clear();
  return 0;
}
#pragma compartment Viewer
#pragma export see
#pragma import List add
#pragma import List clear
#pragma import Env output
void add(int number);
void clear(void);
void output(int v);

void see(int number) {
  output(number);
}
