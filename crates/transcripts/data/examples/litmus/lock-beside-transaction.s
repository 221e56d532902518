# A lock beside a transaction that doesn't look at it. Hart 0 adds 1 to a word under a lock; hart 1 does so in a transaction. A lock isolates
# only from those who take it: the transaction can be committed between hart 0's load and its store, and its update is lost. Each hart exits
# with what it loaded of the word. Strong isolation allows 0 and 1 either way round with the word 2, and 0 and 0 with the word 1.
# lock-in-transaction.s puts it right.
#
#   ./logtm outcomes examples/litmus/lock-beside-transaction.s --harts 2 0x2000
        lui     t0, 2
        addi    t1, t0, 0x40    # the lock
        li      t2, 1
        bnez    a0, try
take:   amoswap.w t3, t2, (t1)
        bnez    t3, take
        lw      a0, 0(t0)
        addi    t3, a0, 1
        sw      t3, 0(t0)
        sw      zero, 0(t1)
        li      a7, 93
        ecall
try:    tbegin  try
        lw      a0, 0(t0)
        addi    t3, a0, 1
        sw      t3, 0(t0)
        tcommit
        li      a7, 93
        ecall
