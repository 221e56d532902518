# A block that a transaction has stored to leaves a small cache before it is stored to again. The second store has to wait until the directory
# has taken the first content; then the block comes back, and its content of that moment, 7, is logged too. The abort undoes both stores, the
# newest first. The hart exits with 0, and the word is 0.
#
#   ./logtm run examples/schedules/spilled-twice.s --cache small --schedule examples/schedules/spilled-twice.schedule 0x2000
        tbegin  out
        lui     t0, 2
        li      t1, 7
        sw      t1, 0(t0)
        lw      t2, 0x40(t0)    # of the same set: block 0x2000 is spilled
        li      t1, 9
        sw      t1, 0(t0)
        tabort
out:    li      a7, 93          # exit
        li      a0, 0
        ecall
