// An interpreter of Brainfuck, the language of eight commands that Urban Mueller published in 1993.
// Input, a byte a word: the program's text, where other bytes are comments; `!`; then what the program itself reads.
//   Its tape has 30,000 cells of a byte each, which wrap; `,` gives 0 at the end of the input.
// Loader reads the text: it joins runs of one command, finds for each bracket its other one, and imports only `input`.
//   It reads what strangers send, so nobody trusts it: its commands are numbers that Main fetches and Cpu judges.
// Cpu keeps commands and tape. It checks each command as it is put, and each jump, each cell and each step as it runs.
// Device alone outputs. It trusts nobody: only bytes go out for the program, and only so many of them.
// Main decides: it hands the commands over, says how many steps are allowed, and has Device tell how the run ended.
//   It believes what Cpu answers, and looks at each number of Loader's before it counts by it.
// The fault: Loader takes the last open bracket at a `]` without asking whether one is open.
#pragma compartment Main
#pragma import Loader load
#pragma import Loader command
#pragma import Cpu put
#pragma import Cpu run
#pragma import Device tell
int load(void);
int command(int i);
int put(int command);
int run(int steps);
void tell(int status);

// The commands go from Loader to Cpu; whether all were taken.
int hand_over(int size) {
  int i;
  int c;
  int taken = 1;
  for (i = 0; i < size && taken; i++) {
    c = command(i);
    taken = put(c);
  }
  return taken;
}

int main(void) {
  int size;
  int taken;
  int status = 9;
  size = load();
  if (size >= 0 && size <= 256) {
    taken = hand_over(size);
    if (taken) {
      status = run(20000);
    }
  }
  tell(status);
  return status;
}
#pragma compartment Loader
#pragma export load
#pragma export command
#pragma export next_byte
#pragma import Env input
int input(void);
// A command is its number and eight times what belongs to it: how often it is done, or where the other bracket stands.
// 0 `>`, 1 `<`, 2 `+`, 3 `-`, 4 `.`, 5 `,`, 6 `[`, 7 `]`.
int commands[256];
int size;
// How many bytes of the text were read.
int place;
int open[16];
int depth;

int number_of(int b) {
  if (b == 62) {
    return 0;
  } else if (b == 60) {
    return 1;
  } else if (b == 43) {
    return 2;
  } else if (b == 45) {
    return 3;
  } else if (b == 46) {
    return 4;
  } else if (b == 44) {
    return 5;
  } else if (b == 91) {
    return 6;
  } else if (b == 93) {
    return 7;
  }
  return -1;
}

// `[` waits for the place of its `]`.
int add_open(void) {
  if (depth == 16) {
    return 0;
  }
  open[depth] = size;
  depth++;
  commands[size] = 6;
  size++;
  return 1;
}

void add_close(void) {
  int other;
  depth--;
  other = open[depth];
  commands[size] = 7 + 8 * other;
  commands[other] = 6 + 8 * size;
  size++;
}

// One of the six others: a run of the same is one command.
void add_plain(int number) {
  if (size > 0 && commands[size - 1] % 8 == number && commands[size - 1] / 8 < 255) {
    commands[size - 1] += 8;
  } else {
    commands[size] = number + 8;
    size++;
  }
}

// How many commands the text has; -1 if it isn't a program, or has too many.
int load(void) {
  int b;
  int number;
  int good = 1;
  size = 0;
  place = 0;
  depth = 0;
  b = input();
  while (b != 33 && b != 0 && good) {
    place++;
    number = number_of(b);
    if (number >= 0 && size == 256) {
      good = 0;
    } else if (number == 6) {
      good = add_open();
    } else if (number == 7) {
      add_close();
    } else if (number >= 0) {
      add_plain(number);
    }
    b = input();
  }
  if (!good || depth > 0) {
    return -1;
  }
  return size;
}

int command(int i) {
  if (i < 0 || i >= size || i >= 256) {
    return -1;
  }
  return commands[i];
}

// What the program reads.
int next_byte(void) {
  int b;
  b = input();
  return b;
}
#pragma compartment Cpu
#pragma export put
#pragma export run
#pragma import Loader next_byte
#pragma import Device write
int next_byte(void);
int write(int value);
struct Command {
  int number;
  int value;
};
struct Command code[256];
int size;
int tape[30000];
// Where the next command and the current cell are.
int pc;
int cell;

// Whether the command was taken: one of the eight, with a value that isn't negative.
int put(int command) {
  if (size == 256 || command < 0) {
    return 0;
  }
  code[size].number = command % 8;
  code[size].value = command / 8;
  size++;
  return 1;
}

int move(int by) {
  if (by < -cell || by > 29999 - cell) {
    return 2;
  }
  cell += by;
  return 0;
}

int write_times(int times) {
  int i;
  int taken = 1;
  for (i = 0; i < times && taken; i++) {
    taken = write(tape[cell]);
  }
  if (!taken) {
    return 4;
  }
  return 0;
}

// The last of so many bytes stays.
void read_times(int times) {
  int i;
  int b;
  for (i = 0; i < times; i++) {
    b = next_byte();
    tape[cell] = b & 255;
  }
}

// A jump goes behind the other bracket, which has to be one.
int jump(int target, int number) {
  if (target >= size) {
    return 3;
  }
  if (code[target].number != number) {
    return 3;
  }
  pc = target;
  return 0;
}

// One command; 0 if the run goes on.
int step(int number, int value) {
  int status = 0;
  if (number == 0) {
    status = move(value);
  } else if (number == 1) {
    status = move(-value);
  } else if (number == 2) {
    tape[cell] = (tape[cell] + value) & 255;
  } else if (number == 3) {
    tape[cell] = (tape[cell] - value) & 255;
  } else if (number == 4) {
    status = write_times(value);
  } else if (number == 5) {
    read_times(value);
  } else if (number == 6 && tape[cell] == 0) {
    status = jump(value, 7);
  } else if (number == 7 && tape[cell] != 0) {
    status = jump(value, 6);
  }
  return status;
}

// How the run ended: 0 behind the last command, 1 no steps left, 2 beside the tape, 3 a wild jump, 4 Device refused.
int run(int steps) {
  int status = 0;
  pc = 0;
  cell = 0;
  while (pc < size && status == 0) {
    if (steps <= 0) {
      return 1;
    }
    steps--;
    status = step(code[pc].number, code[pc].value);
    pc++;
  }
  return status;
}
#pragma compartment Device
#pragma export write
#pragma export tell
#pragma import Env output
void output(int v);
// How many bytes may still go out, and whether the end was told.
int left = 600;
int told;

int write(int value) {
  if (left == 0 || told || value < 0 || value > 255) {
    return 0;
  }
  left--;
  output(value);
  return 1;
}

// 1000 and the status; once, and nothing goes out behind it.
void tell(int status) {
  if (!told && status >= 0 && status <= 9) {
    told = 1;
    output(1000 + status);
  }
}
