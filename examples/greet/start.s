# The least that starts a program in C: gp and tp are set, `main` is called, and its value is the exit code. It gives main no
# words and calls no constructors, as ../runtime/crt0.s does. sp is set already, and memory is zero.
    .section .text.start
    .globl _start
_start:
    .option push
    .option norelax
    la gp, __global_pointer$
    .option pop
    la tp, __thread_pointer
    call main
    call exit
