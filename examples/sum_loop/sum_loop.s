# A million turns of ten instructions on registers and memory, for measuring speed: four sums are kept in
# memory, and a number is mixed from them. Build: see README.md.

    .globl _start
_start:
    addi sp, sp, -32                # room for four sums
    sd   zero, 0(sp)
    sd   zero, 8(sp)
    sd   zero, 16(sp)
    sd   zero, 24(sp)
    li   t1, 1000000                # turns left
    li   t2, 0                      # the mixed number
turn:
    andi t3, t1, 24                 # the sum of this turn: 0, 8, 16 or 24 bytes from sp
    add  t3, t3, sp
    ld   t4, 0(t3)
    add  t4, t4, t1
    sd   t4, 0(t3)
    xor  t2, t2, t4
    slli t5, t4, 1
    add  t2, t2, t5
    addi t1, t1, -1
    bnez t1, turn
    mv   a0, t2                     # exit with the low byte of the mixed number
    li   a7, 93
    ecall
