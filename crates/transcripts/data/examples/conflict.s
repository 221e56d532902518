# Two harts, each of which stores to a word of its own and then wants the other's. The later one is rolled back, waits, and begins again.
#
#   ./logtm run examples/conflict.s --harts 2 0x2000 0x2020
#
# Both exit with 0, and each word is 0x00000002: both have added 1 to it.
        li      s1, 0x2000
        slli    s2, a0, 5
        add     s2, s1, s2      # this hart's word
        xori    s3, a0, 1
        slli    s3, s3, 5
        add     s3, s1, s3      # the other's
try:    tbegin  wait
        lw      t0, 0(s2)
        addi    t0, t0, 1
        sw      t0, 0(s2)
        lw      t0, 0(s3)
        addi    t0, t0, 1
        sw      t0, 0(s3)
        tcommit
        li      a7, 93          # exit
        li      a0, 0
        ecall
wait:   slli    t1, a0, 6
spin:   addi    t1, t1, -1
        bgtz    t1, spin
        j       try
