# Each hart adds 1 to the word at 0x2000 a thousand times, by an atomic operation.
#
#   ./logtm run examples/atomic.s --harts 4 0x2000
#
# All four exit with 0, and the word is 0x00000fa0, which is 4000.
        li      s0, 1000
        li      s1, 0x2000
        li      t0, 1
next:   amoadd.w zero, t0, (s1)
        addi    s0, s0, -1
        bnez    s0, next
        li      a7, 93          # exit
        li      a0, 0
        ecall
