/* Unpacks a zlib stream with zlib's inflate, and outputs the bytes. A negative number ends the input. */
#include "zlib.h"
int input(void);
void output(int value);

static unsigned char packed[4000], unpacked[3000];
static voidpf get(voidpf opaque, uInt items, uInt size) { return Z_NULL; }
static void drop(voidpf opaque, voidpf address) { }

int main(void) {
  z_stream stream;
  int n = 0, c, result;
  unsigned int i;
  while (n < 4000 && (c = input()) >= 0)
    packed[n++] = c;
  stream.next_in = packed;
  stream.avail_in = n;
  stream.next_out = unpacked;
  stream.avail_out = sizeof unpacked;
  stream.zalloc = get;
  stream.zfree = drop;
  stream.opaque = Z_NULL;
  output(inflateInit(&stream));
  result = inflate(&stream, Z_FINISH);
  output(result);
  output(stream.total_out);
  for (i = 0; i < stream.total_out; i++)
    output(unpacked[i]);
  inflateEnd(&stream);
  return 0;
}
