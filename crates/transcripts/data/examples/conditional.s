# Each hart adds 1 to the word at 0x2000 a thousand times, each time by LR and SC. A store of another hart in between ends the reservation: SC then
# fails, and the hart tries again.
#
#   ./logtm run examples/conditional.s --harts 4 0x2000
#
# All four exit with 0, and the word is 0x00000fa0, which is 4000.
        li      s0, 1000
        li      s1, 0x2000
try:    lr.w    t0, (s1)
        addi    t0, t0, 1
        sc.w    t1, t0, (s1)    # 0 if it has stored
        bnez    t1, try
        addi    s0, s0, -1
        bnez    s0, try
        li      a7, 93          # exit
        li      a0, 0
        ecall
