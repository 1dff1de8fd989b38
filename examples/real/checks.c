// A service that sorts and sums up what records hold: CRC-32 of ISO 3309 and RFC 1952, Adler-32 of RFC 1950, heapsort.
// Input, a byte a word: records of a kind, a count, and that many bytes packed by PackBits (TIFF 6.0, section 9).
//   Kind 1 wants them as they came, 2 in order, 3 their CRC-32, 4 their Adler-32; 0 ends. A count is 64 at most.
// Records reads what strangers send, and imports only `input`. Nobody trusts it: Main looks at each kind and count
//   before it goes by them, once, and asks for each byte once; Sorter, Sums and Printer look at each byte.
// Sorter has the numbers that are sorted, and Sums the table and the open sums. They know nobody, serve whoever calls
//   in any order, and check each index and byte; Main trusts what they answer.
// Printer alone outputs, trusts nobody, and has a page of 400 lines. Bytes go out as they are, sums as words, and -1
//   for a record that is refused.
// The fault: Records looks at a record's count, but unpacks each run to its end, be it beyond the count or the array.
#pragma compartment Main
#pragma import Records next
#pragma import Records count
#pragma import Records value
#pragma import Sorter clear
#pragma import Sorter add
#pragma import Sorter sort
#pragma import Sorter item
#pragma import Sums start
#pragma import Sums feed
#pragma import Sums crc
#pragma import Sums adler
#pragma import Printer print_byte
#pragma import Printer print_sum
#pragma import Printer refuse
int next(void);
int count(void);
int value(int i);
void clear(void);
int add(int byte);
void sort(void);
int item(int i);
void start(void);
int feed(int byte);
unsigned int crc(void);
unsigned int adler(void);
void print_byte(int byte);
void print_sum(unsigned int sum);
void refuse(void);

void list(int n) {
  int i;
  int v;
  for (i = 0; i < n; i++) {
    v = value(i);
    print_byte(v);
  }
}

void list_sorted(int n) {
  int i;
  int v;
  int taken = 1;
  clear();
  for (i = 0; i < n && taken; i++) {
    v = value(i);
    taken = add(v);
  }
  if (!taken) {
    refuse();
    return;
  }
  sort();
  for (i = 0; i < n; i++) {
    v = item(i);
    print_byte(v);
  }
}

void sum_up(int kind, int n) {
  int i;
  int v;
  int taken = 1;
  unsigned int sum;
  start();
  for (i = 0; i < n && taken; i++) {
    v = value(i);
    taken = feed(v);
  }
  if (!taken) {
    refuse();
    return;
  }
  if (kind == 3) {
    sum = crc();
  } else {
    sum = adler();
  }
  print_sum(sum);
}

void serve(int kind, int n) {
  if (n < 0 || n > 64) {
    refuse();
  } else if (kind == 1) {
    list(n);
  } else if (kind == 2) {
    list_sorted(n);
  } else if (kind == 3 || kind == 4) {
    sum_up(kind, n);
  } else {
    refuse();
  }
}

int main(void) {
  int kind;
  int n;
  kind = next();
  while (kind != 0) {
    n = count();
    serve(kind, n);
    kind = next();
  }
  return 0;
}
#pragma compartment Records
#pragma export next
#pragma export count
#pragma export value
#pragma import Env input
int input(void);
int values[64];
int held;

// A run of PackBits goes into the array from here on; where it ends. Header 0 to 127: so many bytes and one more;
// 129 to 255: one byte, 257 less the header times; 128 is nothing.
int unpack_run(int at) {
  int header;
  int b;
  int i;
  header = input();
  if (header < 128) {
    for (i = 0; i <= header; i++) {
      values[at + i] = input();
    }
    return at + header + 1;
  } else if (header == 128) {
    return at;
  }
  b = input();
  for (i = 0; i < 257 - header; i++) {
    values[at + i] = b;
  }
  return at + 257 - header;
}

// The next record's kind; a count that is too large leaves the record empty, and its bytes are taken for records.
int next(void) {
  int kind;
  int at = 0;
  kind = input();
  if (kind == 0) {
    return 0;
  }
  held = input();
  if (held < 0 || held > 64) {
    held = 0;
  }
  while (at < held) {
    at = unpack_run(at);
  }
  return kind;
}

int count(void) {
  return held;
}

int value(int i) {
  if (i < 0 || i >= held) {
    return 0;
  }
  return values[i];
}
#pragma compartment Sorter
#pragma export clear
#pragma export add
#pragma export sort
#pragma export item
int heap[64];
int size;

void clear(void) {
  size = 0;
}

int add(int byte) {
  if (size == 64 || byte < 0 || byte > 255) {
    return 0;
  }
  heap[size] = byte;
  size++;
  return 1;
}

void swap(int *a, int *b) {
  int old = *a;
  *a = *b;
  *b = old;
}

// The place of the greatest of a number and its up to two children, among the first n.
int greatest(int i, int n) {
  int most = i;
  if (2 * i + 1 < n && heap[2 * i + 1] > heap[most]) {
    most = 2 * i + 1;
  }
  if (2 * i + 2 < n && heap[2 * i + 2] > heap[most]) {
    most = 2 * i + 2;
  }
  return most;
}

// Lets a number sink until no child of it is greater.
void sink(int i, int n) {
  int most;
  most = greatest(i, n);
  while (most != i) {
    swap(&heap[i], &heap[most]);
    i = most;
    most = greatest(i, n);
  }
}

// Heapsort: makes a heap, then takes its greatest number away again and again.
void sort(void) {
  int i;
  for (i = size / 2 - 1; i >= 0; i--) {
    sink(i, size);
  }
  for (i = size - 1; i > 0; i--) {
    swap(&heap[0], &heap[i]);
    sink(0, i);
  }
}

int item(int i) {
  if (i < 0 || i >= size) {
    return 0;
  }
  return heap[i];
}
#pragma compartment Sums
#pragma export start
#pragma export feed
#pragma export crc
#pragma export adler
unsigned int table[256];
int made;
unsigned int rest = 0xffffffff;
unsigned int low = 1;
unsigned int high;

// What each byte does to the rest: RFC 1952, 8, with the polynomial's bits in reverse.
void make_table(void) {
  unsigned int c;
  int n;
  int bit;
  for (n = 0; n < 256; n++) {
    c = n;
    for (bit = 0; bit < 8; bit++) {
      if (c & 1) {
        c = c >> 1 ^ 0xedb88320;
      } else {
        c = c >> 1;
      }
    }
    table[n] = c;
  }
  made = 1;
}

void start(void) {
  if (!made) {
    make_table();
  }
  rest = 0xffffffff;
  low = 1;
  high = 0;
}

int feed(int byte) {
  if (!made || byte < 0 || byte > 255) {
    return 0;
  }
  rest = table[(rest ^ byte) & 255] ^ rest >> 8;
  low = (low + byte) % 65521;
  high = (high + low) % 65521;
  return 1;
}

unsigned int crc(void) {
  return ~rest;
}

unsigned int adler(void) {
  return high << 16 | low;
}
#pragma compartment Printer
#pragma export print_byte
#pragma export print_sum
#pragma export refuse
#pragma import Env output
void output(int v);
int lines_left = 400;

// Whether the page has room for a line, which is then taken.
int take_line(void) {
  if (lines_left == 0) {
    return 0;
  }
  lines_left--;
  return 1;
}

void print_byte(int byte) {
  int room;
  if (byte < 0 || byte > 255) {
    return;
  }
  room = take_line();
  if (room) {
    output(byte);
  }
}

void print_sum(unsigned int sum) {
  int room;
  room = take_line();
  if (room) {
    output(sum);
  }
}

void refuse(void) {
  int room;
  room = take_line();
  if (room) {
    output(-1);
  }
}
