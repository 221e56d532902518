# A lost update. Each hart adds 1 to a word by a load and a store. If the other's store comes between them, it is lost. Each hart exits with 0.
# Sequential consistency allows the words 1 and 2 for two harts, and 1, 2 and 3 for three.
#
#   ./logtm outcomes examples/litmus/lost-update.s --harts 2 0x2000
        lui     t0, 2
        lw      t1, 0(t0)
        addi    t1, t1, 1
        sw      t1, 0(t0)
        li      a0, 0
        li      a7, 93
        ecall
