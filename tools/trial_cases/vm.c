// A small virtual machine: Loader reads a program, Machine runs it on a stack, Heap keeps its arrays, Screen prints.
//
// The input is COUNT (OPCODE OPERAND)*COUNT, and then what the program reads. Opcodes: 0 halt, 1 push N, 2 add, 3 sub,
// 4 mul, 5 div, 6 jump N, 7 jump if zero N, 8 read, 9 print, 10 new array, 11 get, 12 put, 13 drop array, 14 dup,
// 15 store N, 16 load N, 17 call N, 18 return. It has four faults: see vm.found.
#pragma compartment Main
#pragma import Loader load
#pragma import Loader opcode
#pragma import Loader operand
#pragma import Machine start
#pragma import Machine step
#pragma import Machine counter
#pragma import Machine fault
int load(void);
int opcode(int at);
int operand(int at);
void start(int size);
int step(int op, int arg);
int counter(void);
int fault(void);

int main(void) {
  int size;
  int at;
  int op;
  int arg;
  int going;
  int why;
  size = load();
  start(size);
  going = 1;
  while (going) {
    at = counter();
    op = opcode(at);
    arg = operand(at);
    going = step(op, arg);
  }
  why = fault();
  return why;
}

#pragma compartment Loader
#pragma export load
#pragma export opcode
#pragma export operand
#pragma import Env input
int input(void);

struct instruction {
  int op;
  int arg;
};
struct instruction *code;
int size;

int load(void) {
  int i;
  int n;
  n = input();
  if (n < 1) {
    return 0;
  }
  code = malloc(n * sizeof(struct instruction));
  if (code == 0) {
    return 0;
  }
  for (i = 0; i < n; i++) {
    code[i].op = input();
    if (code[i].op == 1 || code[i].op == 6 || code[i].op == 7 || code[i].op >= 15) {
      code[i].arg = input();
    } else {
      code[i].arg = 0;
    }
  }
  size = n;
  return n;
}

int opcode(int at) {
  if (at < 0 || at >= size) {
    return 0;
  }
  return code[at].op;
}

int operand(int at) {
  if (at < 0 || at >= size) {
    return 0;
  }
  return code[at].arg;
}

#pragma compartment Machine
#pragma export start
#pragma export step
#pragma export counter
#pragma export fault
#pragma import Env input
#pragma import Heap create
#pragma import Heap get
#pragma import Heap set
#pragma import Heap destroy
#pragma import Screen print
int input(void);
int create(int length);
int get(int handle, int index);
int set(int handle, int index, int value);
int destroy(int handle);
void print(int value);

int stack[32];
int depth;
int frames[8];
int frame;
int variables[16];
int pc;
int length;
int wrong;

void start(int size) {
  length = size;
  pc = 0;
  depth = 0;
}

int counter(void) {
  return pc;
}

int fault(void) {
  return wrong;
}

void push(int value) {
  if (depth == 32) {
    wrong = 1;
    return;
  }
  stack[depth] = value;
  depth++;
}

int pop(void) {
  if (depth == 0) {
    wrong = 2;
    return 0;
  }
  depth--;
  return stack[depth];
}

int compute(int op, unsigned int left, unsigned int right) {
  int a;
  int b;
  if (op == 2) {
    return left + right;
  } else if (op == 3) {
    return left - right;
  } else if (op == 4) {
    return left * right;
  }
  a = left;
  b = right;
  if (right == 0) {
    wrong = 3;
    return 0;
  }
  return a / b;
}

int arrays(int op) {
  int value;
  int index;
  int handle;
  int result;
  result = 0;
  if (op == 10) {
    value = pop();
    result = create(value);
  } else if (op == 11) {
    index = pop();
    handle = pop();
    result = get(handle, index);
  } else if (op == 12) {
    value = pop();
    index = pop();
    handle = pop();
    result = set(handle, index, value);
  } else {
    handle = pop();
    result = destroy(handle);
  }
  return result;
}

void control(int op, int arg) {
  int value;
  if (op == 6) {
    pc = arg;
  } else if (op == 7) {
    value = pop();
    if (value == 0) {
      pc = arg;
    }
  } else if (op == 17) {
    if (frame == 8) {
      wrong = 4;
      return;
    }
    frames[frame] = pc;
    frame++;
    pc = arg;
  } else if (frame > 0) {
    frame--;
    pc = frames[frame];
  } else {
    wrong = 5;
  }
}

int step(int op, int arg) {
  int left;
  int right;
  int value;
  if (op == 0 || pc < 0 || pc >= length) {
    return 0;
  }
  pc++;
  if (op < 0) {
    wrong = 7;
  } else if (op == 1) {
    push(arg);
  } else if (op <= 5) {
    right = pop();
    left = pop();
    value = compute(op, left, right);
    push(value);
  } else if (op == 6 || op == 7 || op >= 17) {
    control(op, arg);
  } else if (op == 8) {
    value = input();
    push(value);
  } else if (op == 9) {
    value = pop();
    print(value);
  } else if (op <= 13) {
    value = arrays(op);
    push(value);
  } else if (op == 14) {
    value = pop();
    push(value);
    push(value);
  } else if (arg < 0 || arg >= 16) {
    wrong = 6;
  } else if (op == 15) {
    variables[arg] = pop();
  } else {
    push(variables[arg]);
  }
  return wrong == 0;
}

#pragma compartment Heap
#pragma export create
#pragma export get
#pragma export set
#pragma export destroy

struct array {
  int length;
  int *cells;
};
struct array *table[8];

int create(int length) {
  int i;
  struct array *made;
  i = 0;
  while (i < 8 && table[i] != 0) {
    i++;
  }
  if (i == 8 || length < 1) {
    return -1;
  }
  made = malloc(sizeof(struct array));
  if (made == 0) {
    return -1;
  }
  made->length = length;
  made->cells = malloc(length * sizeof(int));
  if (made->cells == 0) {
    free(made);
    return -1;
  }
  table[i] = made;
  return i;
}

int get(int handle, int index) {
  struct array *found;
  if (handle < 0 || handle >= 8 || table[handle] == 0) {
    return 0;
  }
  found = table[handle];
  if (index < 0 || index > found->length) {
    return 0;
  }
  return found->cells[index];
}

int set(int handle, int index, int value) {
  if (handle < 0 || handle >= 8 || table[handle] == 0) {
    return 0;
  }
  if (index < 0 || index > table[handle]->length) {
    return 0;
  }
  table[handle]->cells[index] = value;
  return 1;
}

int destroy(int handle) {
  if (handle < 0 || handle >= 8 || table[handle] == 0) {
    return 0;
  }
  free(table[handle]->cells);
  return 1;
}

#pragma compartment Screen
#pragma export print
#pragma import Env output
void output(int value);
int line[8];
int used;

void print(int value) {
  line[used & 7] = value;
  used = (used + 1) & 7;
  output(value);
}
