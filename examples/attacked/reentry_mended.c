// List shows its numbers to Viewer one after another. Viewer may add to the list and clear it.
// Nothing is cleared while it is shown.
#pragma compartment List
#pragma export add
#pragma export clear
#pragma import Viewer see
void see(int number);
struct item {
  int number;
  struct item *next;
};
struct item *first;
int is_shown;

void add(int number) {
  struct item *it;
  it = malloc(sizeof(struct item));
  if (it != 0) {
    it->number = number;
    it->next = first;
    first = it;
  }
}

void clear(void) {
  struct item *it;
  while (first != 0 && !is_shown) {
    it = first;
    first = it->next;
    free(it);
  }
}

void show(void) {
  struct item *it;
  is_shown = 1;
  it = first;
  while (it != 0) {
    see(it->number);
    it = it->next;
  }
  is_shown = 0;
}

int main(void) {
  add(1);
  add(2);
  show();
  clear();
  return 0;
}
#pragma compartment Viewer
#pragma export see
#pragma import List add
#pragma import List clear
#pragma import Env output
void add(int number);
void clear(void);
void output(int v);

void see(int number) {
  output(number);
}
