/* The section Hostile of hostile_program.c: code that tries to break out of its compartment, one attempt a number.
   It knows where everything lies. docs/FOREIGN.md tells what comes of each attempt. */
#include "section.h"

typedef volatile unsigned place;

#define CODE(compartment) (0x01000000u + (compartment) * 0x100000u)
#define GLOBALS(compartment) (0x10010000u + (compartment) * 0x100000u)
#define GATE 0x100u
enum { MAIN, HOSTILE, KEY, LOG, SPY };

static int number_of_mine = 1;

static unsigned load(unsigned address) { return *(place *)address; }
static void store(unsigned address, unsigned value) { *(place *)address = value; }

/* A jump as a call, with rd = ra, and one without. */
static int call(unsigned address, int argument) {
  register int given __asm__("a0") = argument;
  register unsigned to __asm__("t0") = address;
  __asm__ volatile("jalr ra, t0" : "+r"(given), "+r"(to) : : "ra", "memory");
  return given;
}
static void jump(unsigned address) { __asm__ volatile("jr %0" : : "r"(address)); }

/* Puts 7341 into every register but ra and sp and calls Spy, which says what it finds in them. */
static int whisper(void) {
  int found;
  __asm__ volatile(
      "addi sp, sp, -16\n  sw gp, 0(sp)\n  sw tp, 4(sp)\n  sw s0, 8(sp)\n"
      "li a0, 7341\n"
      ".irp name, gp, tp, t1, t2, s0, s1, a1, a2, a3, a4, a5, a6, a7, s2, s3, s4, s5, s6, s7, s8, s9, s10, s11\n"
      "mv \\name, a0\n"
      ".endr\n"
      "mv t3, a0\n  mv t4, a0\n  mv t5, a0\n  mv t6, a0\n"
      "li t0, 0x01400000\n  jalr ra, t0\n"
      "mv %0, a0\n  lw gp, 0(sp)\n  lw tp, 4(sp)\n  lw s0, 8(sp)\n  addi sp, sp, 16"
      : "=&r"(found) : : "ra", "t0", "t1", "t2", "t3", "t4", "t5", "t6", "a0", "a1", "a2", "a3", "a4", "a5", "a6", "a7",
      "s1", "s2", "s3", "s4", "s5", "s6", "s7", "s8", "s9", "s10", "s11", "memory");
  return found;
}

/* Asks Key, and gives the bits that stand in any register but ra, sp and a0 after it has answered. */
static int listen(void) {
  int found;
  __asm__ volatile(
      "addi sp, sp, -16\n  sw s0, 0(sp)\n  li a0, 1\n  li t0, 0x01200000\n  jalr ra, t0\n  li a0, 0\n"
      ".irp name, gp, tp, t0, t1, t2, s0, s1, a1, a2, a3, a4, a5, a6, a7, s2, s3, s4, s5, s6, s7, s8, s9, s10, s11\n"
      "or a0, a0, \\name\n"
      ".endr\n"
      "or a0, a0, t3\n  or a0, a0, t4\n  or a0, a0, t5\n  or a0, a0, t6\n"
      "mv %0, a0\n  lw s0, 0(sp)\n  addi sp, sp, 16"
      : "=&r"(found) : : "ra", "t0", "t1", "t2", "t3", "t4", "t5", "t6", "a0", "a1", "a2", "a3", "a4", "a5", "a6", "a7",
      "s1", "s2", "s3", "s4", "s5", "s6", "s7", "s8", "s9", "s10", "s11", "memory");
  return found;
}

/* Uses all of its stack. */
static int deeper(int depth) {
  volatile char frame[1024];
  frame[depth & 1023] = (char)depth;
  return depth > 0 ? deeper(depth + 1) + frame[depth & 1023] : 0;
}

int attack(int number) {
  switch (number) {
    case 1: return (int)load(GLOBALS(KEY));
    case 2: store(GLOBALS(KEY), 1); return 2;
    case 3: store(GLOBALS(MAIN) - 16, 0); return 3;
    case 4: store(GLOBALS(LOG) + 64, 0); return 4;
    case 5: return (int)load(CODE(HOSTILE));
    case 6: store(CODE(HOSTILE), 0); return 6;
    case 7: return call(CODE(KEY) + 4, 1);
    case 8: jump(CODE(KEY)); return 8;
    case 9: return call(CODE(LOG), 1);
    case 10: jump(CODE(MAIN) + 4); return 10;
    case 11: jump((unsigned)&number_of_mine); return 11;
    case 12: jump(GATE + 4); return 12;
    case 13: __asm__ volatile("li a0, 99\n  li sp, 0x10008000\n  li ra, 0x100\n  ret"); return 13;
    case 14: return whisper();
    case 15: return listen();
    case 16: __asm__ volatile("li a7, 2\n  ecall"); return 16;
    case 17: __asm__ volatile("li a7, 4\n  ecall"); return 17;
    case 18: __asm__ volatile("rdcycle a0"); return 18;
    case 19: return deeper(1);
    case 20: for (;;) number_of_mine++;
    case 21: return check(7340) + 2 * check(7341);
    default: return 0;
  }
}
