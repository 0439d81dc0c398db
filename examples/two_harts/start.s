# What starts a program in C on two harts. Both begin here, each with an sp of its own: a0 is 0 on hart 0, which calls
# `main`, whose value is the exit code, and 1 on hart 1, which calls `second`, and then has nothing more to do. The sp of
# hart 1 is 2048 bytes below that of hart 0, so `main` has that many bytes for its stack.
    .section .text.start
    .globl _start
_start:
    .option push
    .option norelax
    la gp, __global_pointer$
    .option pop
    bnez a0, one
    call main
    call exit
one:
    call second
rest:
    j rest
