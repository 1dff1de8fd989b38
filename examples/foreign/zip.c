/* The section Zip of log.c: zlib's inflate over a gzip or zlib message, which comes as its length and its bytes. It
   keeps the extra field of a gzip header, since that is where a published fault of zlib was. */
#include <zlib.h>
#include "section.h"

static unsigned char packed[4096], unpacked[8192], extra[64];

int unpack(void) {
  gz_header header = {.extra = extra, .extra_max = sizeof extra};
  z_stream stream = {.next_in = packed, .next_out = unpacked, .avail_out = sizeof unpacked};
  for (unsigned left = (unsigned)input(); left > 0; left--) {
    int byte = input();
    if (stream.avail_in < sizeof packed) packed[stream.avail_in++] = (unsigned char)byte;
  }
  if (inflateInit2(&stream, 15 + 32) != Z_OK) return -1;
  inflateGetHeader(&stream, &header);
  /* In parts, as a message from the network comes. */
  unsigned left = stream.avail_in;
  int answer = Z_OK;
  while (answer == Z_OK && left > 0) {
    stream.avail_in = left < 100 ? left : 100;
    left -= stream.avail_in;
    answer = inflate(&stream, Z_SYNC_FLUSH);
  }
  inflateEnd(&stream);
  return answer == Z_STREAM_END ? (int)stream.total_out : -2;
}

int word(int at) {
  int value = 0;
  for (int place = at; place < at + 4; place++) {
    value = value * 256 + (place >= 0 && place < (int)sizeof unpacked ? unpacked[place] : 0);
  }
  return value;
}
