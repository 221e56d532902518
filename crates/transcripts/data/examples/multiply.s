# Factorials: the words at 0x2000 and 0x2004 get 12! and its quotient by 11!.
#
#   ./logtm run examples/multiply.s 0x2000 0x2004
#
# The hart exits with 0, and the words are 0x1c8cfc00, which is 479001600, and 0x0000000c.
        li      s1, 0x2000
        li      t0, 12
        li      t1, 1
next:   mul     t1, t1, t0
        addi    t0, t0, -1
        bnez    t0, next
        sw      t1, 0(s1)
        li      t2, 39916800
        divu    t3, t1, t2
        sw      t3, 4(s1)
        li      a7, 93          # exit
        li      a0, 0
        ecall
