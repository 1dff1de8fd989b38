#pragma compartment Main
#pragma import Store keep
#pragma import Env output
int keep(int value);
void output(int v);
int main(void) {
  int kept;
  int more;
  kept = 0;
  more = keep(kept);
  while (more) {
    kept = kept + 1;
    more = keep(kept);
  }
  output(kept);
  return 0;
}
#pragma compartment Store
#pragma export keep
struct record {
  int value;
  int unused[16383];
};
int keep(int value) {
  struct record *r;
  r = malloc(sizeof(struct record));
  if (r == 0) {
    return 0;
  }
  r->value = value;
  return 1;
}
