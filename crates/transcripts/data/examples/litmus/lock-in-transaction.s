# A transaction that looks at a lock. Hart 0 adds 1 to a word under a lock; hart 1 does so in a transaction, which loads the lock first, and
# aborts if it is taken. Until it ends, nobody else can take it. Each hart exits with what it loaded of the word. Strong isolation allows
# only 0 and 1 either way round, with the word 2.
#
#   ./logtm outcomes examples/litmus/lock-in-transaction.s --harts 2 0x2000
        lui     t0, 2
        addi    t1, t0, 0x40    # the lock
        li      t2, 1
        bnez    a0, try
take:   amoswap.w t3, t2, (t1)
        bnez    t3, take
        lw      a0, 0(t0)
        addi    t3, a0, 1
        sw      t3, 0(t0)
        sw      zero, 0(t1)
        li      a7, 93
        ecall
try:    tbegin  try
        lw      t3, 0(t1)
        bnez    t3, taken
        lw      a0, 0(t0)
        addi    t3, a0, 1
        sw      t3, 0(t0)
        tcommit
        li      a7, 93
        ecall
taken:  tabort
