/* The section Block of blocks.c: LZ4 over a block, which comes as the number of bytes that it says it has, its length
   and its bytes. */
#include "lz4.h"
#include "section.h"

static char packed[4096], unpacked[8192];

int unpack(void) {
  int said = input(), length = 0;
  for (unsigned left = (unsigned)input(); left > 0; left--) {
    int byte = input();
    if (length < (int)sizeof packed) packed[length++] = (char)byte;
  }
  if (said > (int)sizeof unpacked) return -1;
  return LZ4_decompress_safe_partial(packed, unpacked, length, said, sizeof unpacked);
}

int word(int at) {
  int value = 0;
  for (int place = at; place < at + 4; place++) {
    value = value * 256 + (place >= 0 && place < (int)sizeof unpacked ? (unsigned char)unpacked[place] : 0);
  }
  return value;
}
