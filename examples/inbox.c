#pragma compartment Main
#pragma import Inbox receive
#pragma import Env output
int receive(int words);
void output(int v);
int main(void) {
  int trusted;
  trusted = receive(4);
  output(trusted);
  return 0;
}
#pragma compartment Inbox
#pragma export receive
#pragma import Env input
int input(void);
int receive(int words) {
  int *message;
  int *trusted;
  int i;
  message = malloc(4 * sizeof(int));
  trusted = malloc(sizeof(int));
  if (message == 0 || trusted == 0) {
    return 0;
  }
  *trusted = 0;
  for (i = 0; i <= words; i++) {
    message[i] = input();
  }
  i = *trusted;
  free(message);
  free(trusted);
  return i;
}
