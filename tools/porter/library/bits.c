/* What gcc has as built-in functions on bits. */
int port_ctz(unsigned int n) {
  int i = 0;
  while (!(n >> i & 1u))
    i++;
  return i;
}
int port_clz(unsigned int n) {
  int i = 31;
  while (!(n >> i & 1u))
    i--;
  return 31 - i;
}
int ffs(int n) { return n ? port_ctz(n) + 1 : 0; }
int port_popcount(unsigned int n) {
  int count = 0;
  for (; n; n &= n - 1)
    count++;
  return count;
}
int port_parity(unsigned int n) { return port_popcount(n) & 1; }
unsigned int port_bswap32(unsigned int n) {
  return n << 24 | (n & 0xff00u) << 8 | (n >> 8 & 0xff00u) | n >> 24;
}
unsigned short port_bswap16(unsigned short n) { return n << 8 | n >> 8; }
int port_clzll(unsigned long long n) {
  unsigned int high = n >> 32;
  return high ? port_clz(high) : 32 + port_clz(n);
}
int port_ctzll(unsigned long long n) {
  unsigned int low = n;
  return low ? port_ctz(low) : 32 + port_ctz(n >> 32);
}
int port_ffsll(long long n) { return n ? port_ctzll(n) + 1 : 0; }
int port_popcountll(unsigned long long n) { return port_popcount(n) + port_popcount(n >> 32); }
int port_parityll(unsigned long long n) { return port_popcountll(n) & 1; }
unsigned long long port_bswap64(unsigned long long n) {
  return (unsigned long long)port_bswap32(n) << 32 | port_bswap32(n >> 32);
}
long long llabs(long long n) { return n < 0 ? -n : n; }
