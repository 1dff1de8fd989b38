# What doesn't come back: each ends the run as `stop trap breakpoint`, at an address that says which it was.
.option norelax
.option norvc
.macro ends names:vararg
  .section .text.secomp_ends_\@, "ax"
  .irp name, \names
  .weak \name
  .type \name, @function
  \name:
  .endr
  ebreak
  j . - 4
.endm
ends exit, _exit, _Exit, quick_exit
ends abort
ends __assert_func, __assert_no_args, __assert
ends __cxa_pure_virtual, __cxa_deleted_virtual
ends __stack_chk_fail

# The machine's calls for the zone.
.section .text.secomp_allocate, "ax"
.globl secomp_allocate
.type secomp_allocate, @function
secomp_allocate:
  li a7, 3
  ecall
  ret
.section .text.secomp_free, "ax"
.globl secomp_free
.type secomp_free, @function
secomp_free:
  li a7, 4
  ecall
  ret
.text
