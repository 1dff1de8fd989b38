// A gate that checks messages by HMAC-SHA-256: FIPS 180-4 (SHA-256), RFC 2104 (HMAC), vectors of RFC 4231.
// Input, a byte a word: the key's use, its length and its bytes; then records of a kind, a length, and that many bytes.
//   Kind 1 adds to the message; 2 and 3 end it with its tag, of 32 bytes or its first 16; 4 wants its tag made;
//   5 wants the SHA-256 of the record; 0 ends. Use 1 lets tags be checked, use 3 also made.
// Mac has the key, and trusts nobody: it tells keyed from plain messages, and makes tags only if the use says so.
//   No export gives the key, an unfinished hash, or the right tag where only checking is allowed.
// Setup reads the key before any stranger is heard, gives it to Mac, and seals Mac; Main trusts it, and calls it first.
// Reader reads what strangers send, and imports only `input`. Nobody trusts it: Main looks at each kind and length,
//   Mac at each byte. It also ends a session with more than two tags; that it does is trusted, wrongly.
// Main decides, and trusts Mac's answers. Log alone outputs: kind * 10 + answer, tags and hashes by words; -1 for a
//   kind that there isn't.
// The fault: Reader counts the kinds that came, in `seen`, before anybody has looked at the kind.
#pragma compartment Main
#pragma import Setup load
#pragma import Mac start
#pragma import Mac absorb
#pragma import Mac is_tag
#pragma import Mac is_short_tag
#pragma import Mac make
#pragma import Mac digest
#pragma import Mac result
#pragma import Reader next
#pragma import Reader length
#pragma import Reader byte
#pragma import Reader word
#pragma import Log note
#pragma import Log show
int load(void);
void start(int keyed);
int absorb(int byte);
int is_tag(unsigned int t0, unsigned int t1, unsigned int t2, unsigned int t3,
           unsigned int t4, unsigned int t5, unsigned int t6, unsigned int t7);
int is_short_tag(unsigned int t0, unsigned int t1, unsigned int t2, unsigned int t3);
int make(void);
int digest(void);
unsigned int result(int i);
int next(void);
int length(void);
int byte(int i);
unsigned int word(int i);
void note(int kind, int answer);
void show(unsigned int word);

// The record's bytes go into the message. What Reader says of its length is looked at here, once.
int absorb_record(int n) {
  int i = 0;
  int b;
  int taken = 1;
  if (n < 0 || n > 64) {
    return 0;
  }
  while (i < n && taken) {
    b = byte(i);
    taken = absorb(b);
    i++;
  }
  return taken;
}

void show_result(void) {
  int i;
  unsigned int w;
  for (i = 0; i < 8; i++) {
    w = result(i);
    show(w);
  }
}

int check_tag(int words) {
  unsigned int t[8];
  int i;
  int answer;
  for (i = 0; i < words; i++) {
    t[i] = word(i);
  }
  if (words == 8) {
    answer = is_tag(t[0], t[1], t[2], t[3], t[4], t[5], t[6], t[7]);
  } else {
    answer = is_short_tag(t[0], t[1], t[2], t[3]);
  }
  return answer;
}

void serve(int kind, int n) {
  int answer = 0;
  if (kind == 1) {
    answer = absorb_record(n);
  } else if (kind == 2 && n == 32) {
    answer = check_tag(8);
  } else if (kind == 3 && n == 16) {
    answer = check_tag(4);
  } else if (kind == 4) {
    answer = make();
  } else if (kind == 5) {
    start(0);
    answer = absorb_record(n);
    if (answer) {
      answer = digest();
    }
  }
  note(kind, answer);
  if ((kind == 4 || kind == 5) && answer) {
    show_result();
  }
  if (kind != 1) {
    start(1);
  }
}

int main(void) {
  int kind;
  int n;
  int ready;
  ready = load();
  if (!ready) {
    return 1;
  }
  start(1);
  kind = next();
  while (kind != 0) {
    n = length();
    serve(kind, n);
    kind = next();
  }
  return 0;
}
#pragma compartment Mac
#pragma export set_use
#pragma export add_key
#pragma export seal
#pragma export start
#pragma export absorb
#pragma export is_tag
#pragma export is_short_tag
#pragma export make
#pragma export digest
#pragma export result
unsigned int k[64] = {
  0x428a2f98, 0x71374491, 0xb5c0fbcf, 0xe9b5dba5, 0x3956c25b, 0x59f111f1, 0x923f82a4, 0xab1c5ed5,
  0xd807aa98, 0x12835b01, 0x243185be, 0x550c7dc3, 0x72be5d74, 0x80deb1fe, 0x9bdc06a7, 0xc19bf174,
  0xe49b69c1, 0xefbe4786, 0x0fc19dc6, 0x240ca1cc, 0x2de92c6f, 0x4a7484aa, 0x5cb0a9dc, 0x76f988da,
  0x983e5152, 0xa831c66d, 0xb00327c8, 0xbf597fc7, 0xc6e00bf3, 0xd5a79147, 0x06ca6351, 0x14292967,
  0x27b70a85, 0x2e1b2138, 0x4d2c6dfc, 0x53380d13, 0x650a7354, 0x766a0abb, 0x81c2c92e, 0x92722c85,
  0xa2bfe8a1, 0xa81a664b, 0xc24b8b70, 0xc76c51a3, 0xd192e819, 0xd6990624, 0xf40e3585, 0x106aa070,
  0x19a4c116, 0x1e376c08, 0x2748774c, 0x34b0bcb5, 0x391c0cb3, 0x4ed8aa4a, 0x5b9cca4f, 0x682e6ff3,
  0x748f82ee, 0x78a5636f, 0x84c87814, 0x8cc70208, 0x90befffa, 0xa4506ceb, 0xbef9a3f7, 0xc67178f2
};
unsigned int initial[8] = {
  0x6a09e667, 0xbb67ae85, 0x3c6ef372, 0xa54ff53a, 0x510e527f, 0x9b05688c, 0x1f83d9ab, 0x5be0cd19
};
int use;
int sealed;
int key[160];
int key_length;
// A hash that isn't finished: its state, the block that fills, and how many bytes it has had.
unsigned int state[8];
unsigned int block[64];
int fill;
unsigned int total;
// What `start` began: 0 nothing, 1 a plain message, 2 a keyed one.
int began;
// What may be asked for word by word: a hash of no key, or a tag that was allowed.
unsigned int shown[8];

// One block of FIPS 180-4, 6.2.2.
void compress(void) {
  unsigned int w[64];
  unsigned int s[8];
  unsigned int t1;
  unsigned int t2;
  int i;
  for (i = 0; i < 16; i++) {
    w[i] = block[4 * i] << 24 | block[4 * i + 1] << 16 | block[4 * i + 2] << 8 | block[4 * i + 3];
  }
  for (i = 16; i < 64; i++) {
    t1 = w[i - 2];
    t2 = w[i - 15];
    w[i] = ((t1 >> 17 | t1 << 15) ^ (t1 >> 19 | t1 << 13) ^ t1 >> 10) + w[i - 7]
         + ((t2 >> 7 | t2 << 25) ^ (t2 >> 18 | t2 << 14) ^ t2 >> 3) + w[i - 16];
  }
  for (i = 0; i < 8; i++) {
    s[i] = state[i];
  }
  for (i = 0; i < 64; i++) {
    t1 = s[7] + ((s[4] >> 6 | s[4] << 26) ^ (s[4] >> 11 | s[4] << 21) ^ (s[4] >> 25 | s[4] << 7))
       + (s[4] & s[5] ^ ~s[4] & s[6]) + k[i] + w[i];
    t2 = ((s[0] >> 2 | s[0] << 30) ^ (s[0] >> 13 | s[0] << 19) ^ (s[0] >> 22 | s[0] << 10))
       + (s[0] & s[1] ^ s[0] & s[2] ^ s[1] & s[2]);
    s[7] = s[6];
    s[6] = s[5];
    s[5] = s[4];
    s[4] = s[3] + t1;
    s[3] = s[2];
    s[2] = s[1];
    s[1] = s[0];
    s[0] = t1 + t2;
  }
  for (i = 0; i < 8; i++) {
    state[i] += s[i];
  }
}

void begin(void) {
  int i;
  for (i = 0; i < 8; i++) {
    state[i] = initial[i];
  }
  fill = 0;
  total = 0u;
}

// A byte goes into the block; a full block is compressed.
void put(unsigned int b) {
  block[fill] = b;
  fill++;
  total++;
  if (fill == 64) {
    compress();
    fill = 0;
  }
}

void put_word(unsigned int v) {
  put(v >> 24);
  put(v >> 16 & 255);
  put(v >> 8 & 255);
  put(v & 255);
}

// The padding of FIPS 180-4, 5.1.1: fewer than 2^28 bytes have come, so the bits fit a word.
void finish(void) {
  unsigned int bits;
  bits = total << 3;
  put(0x80);
  while (fill != 56) {
    put(0);
  }
  put_word(0);
  put_word(bits);
}

// RFC 2104: the key, filled up with zeros to a block, each byte exclusive-or'ed with the pad.
void put_pad(int pad) {
  int i;
  for (i = 0; i < 64; i++) {
    put(key[i] ^ pad);
  }
}

// The tag of the message is then the state; no message is open any more.
void finish_tag(void) {
  unsigned int inner[8];
  int i;
  finish();
  for (i = 0; i < 8; i++) {
    inner[i] = state[i];
  }
  begin();
  put_pad(0x5c);
  for (i = 0; i < 8; i++) {
    put_word(inner[i]);
  }
  finish();
  began = 0;
}

void show_state(void) {
  int i;
  for (i = 0; i < 8; i++) {
    shown[i] = state[i];
  }
}

void set_use(int bits) {
  if (!sealed) {
    use = bits & 3;
  }
}

int add_key(int byte) {
  if (sealed || key_length >= 160) {
    return 0;
  }
  key[key_length] = byte & 255;
  key_length++;
  return 1;
}

// From here on the key stays. RFC 2104: one of more than a block is replaced by its hash.
void seal(void) {
  int i;
  if (sealed) {
    return;
  }
  sealed = 1;
  if (key_length > 64) {
    begin();
    for (i = 0; i < key_length; i++) {
      put(key[i]);
    }
    finish();
    for (i = 0; i < 160; i++) {
      key[i] = 0;
    }
    for (i = 0; i < 32; i++) {
      key[i] = state[i / 4] >> (24 - i % 4 * 8) & 255;
    }
  }
}

void start(int keyed) {
  begin();
  began = 1;
  if (keyed) {
    began = 2;
    put_pad(0x36);
  }
}

int absorb(int byte) {
  if (began == 0 || byte < 0 || byte > 255 || total >= 0x0fffffff) {
    return 0;
  }
  put(byte);
  return 1;
}

// Whether the message has this tag. All words are looked at, whatever the first is.
int is_tag(unsigned int t0, unsigned int t1, unsigned int t2, unsigned int t3,
           unsigned int t4, unsigned int t5, unsigned int t6, unsigned int t7) {
  unsigned int differ;
  if (began != 2 || !(use & 1)) {
    return 0;
  }
  finish_tag();
  differ = (t0 ^ state[0]) | (t1 ^ state[1]) | (t2 ^ state[2]) | (t3 ^ state[3]);
  differ |= (t4 ^ state[4]) | (t5 ^ state[5]) | (t6 ^ state[6]) | (t7 ^ state[7]);
  return differ == 0;
}

// The first half of a tag, RFC 2104, 5; no shorter part is ever taken.
int is_short_tag(unsigned int t0, unsigned int t1, unsigned int t2, unsigned int t3) {
  if (began != 2 || !(use & 1)) {
    return 0;
  }
  finish_tag();
  return ((t0 ^ state[0]) | (t1 ^ state[1]) | (t2 ^ state[2]) | (t3 ^ state[3])) == 0;
}

int make(void) {
  if (began != 2 || !(use & 2)) {
    return 0;
  }
  finish_tag();
  show_state();
  return 1;
}

int digest(void) {
  if (began != 1) {
    return 0;
  }
  finish();
  began = 0;
  show_state();
  return 1;
}

unsigned int result(int i) {
  if (i < 0 || i >= 8) {
    return 0;
  }
  return shown[i];
}
#pragma compartment Setup
#pragma export load
#pragma import Env input
#pragma import Mac set_use
#pragma import Mac add_key
#pragma import Mac seal
int input(void);
void set_use(int bits);
int add_key(int byte);
void seal(void);

// Whether the key was taken. It stays nowhere in this section.
int load(void) {
  int bits;
  int n;
  int b;
  int taken = 1;
  bits = input();
  set_use(bits);
  n = input();
  while (n > 0 && taken) {
    b = input();
    taken = add_key(b);
    n--;
  }
  seal();
  return taken;
}
#pragma compartment Reader
#pragma export next
#pragma export length
#pragma export byte
#pragma export word
#pragma import Env input
int input(void);
int value[64];
int count;
// How many records of each kind came, and how many tags a session may try.
int seen[6];
int most_tags = 2;

// The next record's kind, 0 at the end or after too many tags. A record of more than 64 bytes is read, and has none.
int next(void) {
  int kind;
  int n;
  int i;
  int b;
  kind = input();
  n = input();
  for (i = 0; i < n; i++) {
    b = input();
    if (i < 64) {
      value[i] = b;
    }
  }
  count = n;
  if (n < 0 || n > 64) {
    count = 0;
  }
  seen[kind]++;
  if (seen[2] + seen[3] > most_tags) {
    return 0;
  }
  return kind;
}

int length(void) {
  return count;
}

int byte(int i) {
  if (i < 0 || i >= count) {
    return 0;
  }
  return value[i];
}

// Four bytes as one word, the first the highest.
unsigned int word(int i) {
  unsigned int w = 0u;
  int j;
  if (i < 0 || i >= count / 4) {
    return 0u;
  }
  for (j = 0; j < 4; j++) {
    w = w << 8 | (value[i * 4 + j] & 255);
  }
  return w;
}
#pragma compartment Log
#pragma export note
#pragma export show
#pragma import Env output
void output(int v);
// Whoever asks, a session has no more lines than this.
int left = 1000;

void note(int kind, int answer) {
  if (left > 0 && kind >= 0 && kind <= 5) {
    left--;
    output(kind * 10 + answer % 10);
  } else if (left > 0) {
    left--;
    output(-1);
  }
}

void show(unsigned int word) {
  if (left > 0) {
    left--;
    output(word);
  }
}
