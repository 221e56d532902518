# Each hart adds 1 to the word at 0x2000 a hundred times, each time in a transaction, and begins again at once after an abort.
#
#   ./logtm run examples/learn/no-backoff.s --harts 3 --steps 100000 0x2000
#
# Three harts abort each other for ever: the run comes to its step limit.
        li      s0, 100
        li      s1, 0x2000
try:    tbegin  try
        lw      t0, 0(s1)
        addi    t0, t0, 1
        sw      t0, 0(s1)
        tcommit
        addi    s0, s0, -1
        bnez    s0, try
        li      a7, 93          # exit
        li      a0, 0
        ecall
