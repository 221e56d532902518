# Both harts add 1 to the word at 0x2000 by LR and SC, and try once. Each exits with 0 if it has stored.
#
#   ./logtm outcomes examples/litmus/conditional-updates.s --harts 2 0x2000
        li      s0, 0x2000
        lr.w    t0, (s0)
        addi    t0, t0, 1
        sc.w    a0, t0, (s0)
        li      a7, 93
        ecall
