# The section Spy of hostile_program.c: the bits that stand in any register but ra and sp when it is called.
.text
.globl look
.type look, @function
look:
  .irp name, gp, tp, t0, t1, t2, s0, s1, a1, a2, a3, a4, a5, a6, a7, s2, s3, s4, s5, s6, s7, s8, s9, s10, s11, t3, t4
  or a0, a0, \name
  .endr
  or a0, a0, t5
  or a0, a0, t6
  ret
