/* switch, goto, loops: also cases inside loops, and jumps into and out of blocks. */
void output(int value);

static int sort(int n) {
  switch (n) {
  case 0:
    return 100;
  case 1:
  case 2:
    n += 10;
  default:
    n++;
    break;
  case 7:
    for (;;) {
      if (n > 20)
        break;
      n += 3;
      if (n & 1)
        continue;
      n++;
    }
    n *= 2;
  }
  return n;
}

static int skipping(int n) {
  int sum = 0, i;
  for (i = 0; i < n; i++) {
    switch (i % 4) {
    case 0:
      continue;
    case 1:
      if (i > 8)
        break;
      sum += 100;
      continue;
    default:
      sum += 1;
    }
    sum += 10;
  }
  return sum;
}

static int step, phase;
static int resumed(int x) {
  switch (phase) {
    while (1) {
  case 0:
      step += x;
      do {
        if (step > 50)
          goto done;
        phase = 1;
        return step;
  case 1:
        step += 2;
      } while (step % 3);
      step += 100 * 0;
  case 2:
      step++;
    }
  }
done:
  phase = 0;
  return -step;
}

static int device(char *to, const char *from, int count) {
  int n = (count + 7) / 8;
  switch (count % 8) {
  case 0:
    do {
      *to++ = *from++;
  case 7:
      *to++ = *from++;
  case 6:
      *to++ = *from++;
  case 5:
      *to++ = *from++;
  case 4:
      *to++ = *from++;
  case 3:
      *to++ = *from++;
  case 2:
      *to++ = *from++;
  case 1:
      *to++ = *from++;
    } while (--n > 0);
  }
  return to[-1];
}

static int jumping(int n) {
  int i, j;
  for (i = 0; i < 5; i++) {
    for (j = 0; j < 5; j++) {
      if (i * j == n)
        goto found;
    }
  }
  goto missing;
again:
  n += 1;
  if (n < 9)
    goto again;
  return n;
found:
  if (n > 2) {
    int extra = 5;
    n = i * 10 + j + extra;
  } else {
missing:
    n = -n;
    goto again;
  }
  return n;
}

int main(void) {
  char text[20];
  int i, n = 0;
  for (i = 0; i < 9; i++)
    output(sort(i));
  output(skipping(13));
  for (i = 0; i < 12; i++)
    output(resumed(i));
  output(device(text, "abcdefghijklmnopq", 13));
  for (i = 0; i < 14; i += 3)
    output(jumping(i));
  do {
    n++;
    if (n == 3)
      continue;
    if (n > 5)
      break;
    output(n);
  } while (n < 10);
  do {
    if (n == 6)
      break;
    output(-1);
  } while (0);
  for (int k = 0, m = 3; k < m; k++) {
    if (k == 1)
      continue;
    output(k);
  }
  return 0;
}
