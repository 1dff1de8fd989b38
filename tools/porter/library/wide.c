/* Arithmetic of long long on two words; the high word of each result is left in port_high. */
unsigned int port_high;

unsigned int port_left(unsigned int low, unsigned int high, unsigned int n) {
  if (n == 0) {
    port_high = high;
    return low;
  }
  if (n >= 32) {
    port_high = low << (n - 32);
    return 0;
  }
  port_high = high << n | low >> (32 - n);
  return low << n;
}

unsigned int port_right(unsigned int low, unsigned int high, unsigned int n) {
  if (n == 0) {
    port_high = high;
    return low;
  }
  if (n >= 32) {
    port_high = 0;
    return high >> (n - 32);
  }
  port_high = high >> n;
  return low >> n | high << (32 - n);
}

unsigned int port_right_signed(unsigned int low, unsigned int high, unsigned int n) {
  if ((int)high >= 0)
    return port_right(low, high, n);
  low = port_right(~low, ~high, n);
  port_high = ~port_high;
  return ~low;
}

unsigned int port_multiply(unsigned int al, unsigned int ah, unsigned int bl, unsigned int bh) {
  unsigned int a0 = al & 65535, a1 = al >> 16, b0 = bl & 65535, b1 = bl >> 16;
  unsigned int middle = a1 * b0 + (a0 * b0 >> 16);
  unsigned int other = a0 * b1 + (middle & 65535);
  port_high = a1 * b1 + (middle >> 16) + (other >> 16) + al * bh + ah * bl;
  return al * bl;
}

static unsigned int rest_low, rest_high;

unsigned int port_divide(unsigned int al, unsigned int ah, unsigned int bl, unsigned int bh) {
  unsigned int ql = 0, qh = 0, rl = 0, rh = 0, i, top;
  if (bl == 0 && bh == 0)
    bl = al / bl;
  for (i = 0; i < 64; i++) {
    top = rh >> 31;
    rh = rh << 1 | rl >> 31;
    rl = rl << 1 | ah >> 31;
    ah = ah << 1 | al >> 31;
    al = al << 1;
    qh = qh << 1 | ql >> 31;
    ql = ql << 1;
    if (top || rh > bh || (rh == bh && rl >= bl)) {
      rh = rh - bh - (rl < bl);
      rl = rl - bl;
      ql = ql | 1;
    }
  }
  rest_low = rl;
  rest_high = rh;
  port_high = qh;
  return ql;
}

unsigned int port_remainder(unsigned int al, unsigned int ah, unsigned int bl, unsigned int bh) {
  port_divide(al, ah, bl, bh);
  port_high = rest_high;
  return rest_low;
}

static unsigned int negated(unsigned int low, unsigned int high) {
  port_high = ~high + (low == 0);
  return -low;
}

unsigned int port_divide_signed(unsigned int al, unsigned int ah, unsigned int bl, unsigned int bh) {
  unsigned int differ = (ah ^ bh) >> 31;
  if (ah >> 31) {
    al = negated(al, ah);
    ah = port_high;
  }
  if (bh >> 31) {
    bl = negated(bl, bh);
    bh = port_high;
  }
  al = port_divide(al, ah, bl, bh);
  return differ ? negated(al, port_high) : al;
}

unsigned int port_remainder_signed(unsigned int al, unsigned int ah, unsigned int bl, unsigned int bh) {
  unsigned int negative = ah >> 31;
  if (negative) {
    al = negated(al, ah);
    ah = port_high;
  }
  if (bh >> 31) {
    bl = negated(bl, bh);
    bh = port_high;
  }
  al = port_remainder(al, ah, bl, bh);
  return negative ? negated(al, port_high) : al;
}
