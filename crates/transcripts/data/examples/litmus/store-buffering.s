# Store buffering. Each hart stores to a word, and then loads the word that the other stores to. Where stores wait in buffers, both loads can
# give 0. Here a store is done only once no other hart has the block, so the load of one hart comes after the store of the other.
# Each hart exits with what it loaded.
#
#   ./logtm run examples/litmus/store-buffering.s --harts 2 --schedule examples/litmus/store-buffering.schedule
        lui     t0, 2
        li      t1, 1
        bnez    a0, second
        lw      t2, 0x40(t0)    # an old copy of the other's word
        sw      t1, 0(t0)
        lw      a0, 0x40(t0)
        li      a7, 93
        ecall
second: lw      t2, 0(t0)
        sw      t1, 0x40(t0)
        lw      a0, 0(t0)
        li      a7, 93
        ecall
