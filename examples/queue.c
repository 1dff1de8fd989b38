#pragma compartment Main
#pragma import Queue put
#pragma import Queue take
#pragma import Queue clear
#pragma import Env input
#pragma import Env output
void put(int value);
int take(void);
void clear(void);
int input(void);
void output(int v);
int main(void) {
  int request;
  int value;
  request = input();
  while (request != 0) {
    if (request == 1) {
      value = input();
      put(value);
    } else if (request == 2) {
      value = take();
      output(value);
    } else {
      clear();
    }
    request = input();
  }
  return 0;
}
#pragma compartment Queue
#pragma export put
#pragma export take
#pragma export clear
struct message {
  int value;
  struct message *next;
};
struct message *first;
void put(int value) {
  struct message *m;
  m = malloc(sizeof(struct message));
  if (m != 0) {
    m->value = value;
    m->next = first;
    first = m;
  }
}
int take(void) {
  struct message *m;
  int value;
  if (first == 0) {
    return -1;
  }
  m = first;
  value = m->value;
  first = m->next;
  free(m);
  return value;
}
void clear(void) {
  struct message *m;
  struct message *next;
  m = first;
  while (m != 0) {
    next = m->next;
    free(m);
    m = next;
  }
}
