# A lock by an atomic operation. Each hart puts 1 into the lock until it was 0, adds 1 to a word by a load and a store, and puts 0 into the
# lock. Where the accesses between could pass those to the lock, an update can be lost. Each hart exits with what it loaded of the word.
# Sequential consistency allows 0 for the first hart and 1 for the second, with the word 2 at the end.
#
#   ./logtm outcomes examples/litmus/lock.s --harts 2 0x2000 0x2040
        lui     t0, 2
        addi    t1, t0, 0x40    # the lock
        li      t2, 1
take:   amoswap.w t3, t2, (t1)
        bnez    t3, take
        lw      a0, 0(t0)
        addi    t3, a0, 1
        sw      t3, 0(t0)
        sw      zero, 0(t1)
        li      a7, 93
        ecall
