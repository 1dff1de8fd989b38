/* Effects inside expressions: each place is evaluated once, in C's order, with its sequence points. */
void output(int value);

static int counter;
static int next(void) { return ++counter; }
static int t[8] = {10, 20, 30, 40, 50, 60, 70, 80};
static int *at(int i) {
  counter += 100;
  return &t[i];
}

int main(void) {
  int i = 2, j, k, *p = t, *q;
  char text[6], *to = text;
  const char *from = "hello";
  q = &t[i++];
  output(*q + i);
  t[next()] += 5;
  output(t[1] + counter);
  *at(3) *= 2;
  output(t[3] + counter);
  (*at(4))++;
  output(t[4] + counter);
  j = k = i--;
  output(j + k * 10 + i * 100);
  output(*p++ + 1);
  output((*p)++ + *p);
  output(*++p);
  output(p[-1]);
  while ((*to++ = *from++) != 0)
    ;
  output(text[4]);
  output(to - text);
  output(i > 100 && next() || next() > 2);
  output(counter);
  output((next(), i ? next() : -1) + (counter > 3 ? i++ : i--));
  output(i);
  i = 5;
  i += i++ ? 10 : 20;
  j = next() * 1000 + next();
  output(j);
  for (i = 0, j = 10; i < j; i++, j--)
    k = i * j;
  output(k);
  do
    k -= 3;
  while (k > 0 && next());
  output(k);
  output(!next() + -next() + ~next());
  t[i = 3] = i = 3;
  output(t[3]);
  if (next() & 1 ? next() : 0)
    output(1);
  return counter & 127;
}
