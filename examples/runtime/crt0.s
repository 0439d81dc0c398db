# The first instructions of a program in C. The machine starts with sp (x2) near the end of memory and with zeros in all
# of memory outside the file's segments, so no memory has to be cleared. gp and tp are set, the stack is put below the
# program, constructors are called in their order, and main gets one word: argc is 1, argv[0] is "program", and after it
# comes a null pointer, which is also the end of an empty environment.
#
# The stack ends where memory begins, so one that overflows traps with 7 (a store outside memory). Its size is
# __stack_size; the linker script leaves so many bytes free before the program. Another size is said to the compiler, as in
# -Wl,--defsym=__stack_size=262144, a multiple of 16. With 0 the stack stays at the end of memory, where it runs into the
# heap and then into the program if it overflows.
    .weak __stack_size
    .equ __stack_size, 65536

    .section .text.start
    .globl _start
_start:
    .option push
    .option norelax
    la gp, __global_pointer$
    .option pop
    la tp, __thread_pointer
# With two harts the second, whose number is in a0, goes its own way.
    bnez a0, one
# The machine has no program arguments: at sp stands 0. An emulator of Linux has their number there; its programs keep
# the stack that they are given, as no other memory is sure to be there.
    ld t0, 0(sp)
    bnez t0, placed
    la t0, __stack_begin
    la t1, __stack_end
    beq t0, t1, placed
# What the stack would have taken at the end of memory is the heap's. With two harts the second has its stack there.
    la t0, second
    bnez t0, below
    addi t0, sp, 256
    la t2, __memory_end
    sd t0, 0(t2)
below:
    mv sp, t1
placed:
    la s0, __constructors_start
    la s1, __constructors_end
next:
    beq s0, s1, done
    ld t0, 0(s0)
    addi s0, s0, 8
    jalr t0
    j next
done:
    la t0, ready
    li t1, 1
    fence
    sd t1, 0(t0)
    li a0, 1
    la a1, words
    addi a2, a1, 8
    call main
    call exit

# The second hart waits until the constructors were called, and calls `second` if the program has such a function. After
# that, or without it, it does nothing any more. Its stack is at the end of memory.
    .weak second
one:
    la s0, second
    beqz s0, rest
    la t0, ready
wait:
    ld t1, 0(t0)
    beqz t1, wait
    fence
    jalr s0
rest:
    j rest

# A program may write to its words, so they are data.
    .data
    .balign 8
words:
    .dword name, 0
# The end of memory, if the heap may go so far, and else 0.
    .globl __memory_end
__memory_end:
    .dword 0
ready:
    .dword 0
name:
    .asciz "program"
