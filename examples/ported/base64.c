/* Encodes its input with libb64, and decodes that again. A negative number ends the input. */
#include <b64/cencode.h>
#include <b64/cdecode.h>
int input(void);
void output(int value);

static char plain[400], coded[800];

int main(void) {
  base64_encodestate encoder;
  base64_decodestate decoder;
  int n = 0, c, length, i;
  while (n < 300 && (c = input()) >= 0)
    plain[n++] = c;
  base64_init_encodestate(&encoder);
  length = base64_encode_block(plain, n, coded, &encoder);
  length += base64_encode_blockend(coded + length, &encoder);
  for (i = 0; i < length; i++)
    output(coded[i]);
  base64_init_decodestate(&decoder);
  n = base64_decode_block(coded, length, plain, &decoder);
  for (i = 0; i < n; i++)
    output(plain[i]);
  return 0;
}
