# Each hart adds 1 to the word at 0x2000 a hundred times, each time in a transaction. A hart whose transaction was aborted waits before it
# tries again: twice as long after each abort, and each hart for a time of its own. Without that, three harts or more can abort each other
# for ever.
#
#   ./logtm run examples/counter.s --harts 8 0x2000
#
# All eight exit with 0, and the word is 0x00000320, which is 800.
_start: li      s0, 100
        li      s1, 0x2000
again:  addi    s2, a0, 1       # how long to wait after the next abort: 1 for hart 0, 2 for hart 1, ..
try:    tbegin  wait
        lw      t0, 0(s1)
        addi    t0, t0, 1
        sw      t0, 0(s1)
        tcommit
        addi    s0, s0, -1
        bnez    s0, again
        li      a7, 93          # exit
        li      a0, 0
        ecall
wait:   slli    s2, s2, 1
        mv      t1, s2
spin:   addi    t1, t1, -1
        bnez    t1, spin
        j       try
