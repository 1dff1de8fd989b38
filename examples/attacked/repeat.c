// Session lends one block, which `begin` makes and `finish` frees.
// The weakness: `finish` doesn't know that it was called before.
#pragma compartment Main
#pragma import Session begin
#pragma import Session finish
int begin(int user);
void finish(void);

int main(void) {
  int has_begun;
  has_begun = begin(3);
  if (has_begun) {
    finish();
  }
  return 0;
}
#pragma compartment Session
#pragma export begin
#pragma export finish
int *user_of;

int begin(int user) {
  user_of = malloc(sizeof(int));
  if (user_of == 0) {
    return 0;
  }
  *user_of = user;
  return 1;
}

void finish(void) {
  free(user_of);
}
