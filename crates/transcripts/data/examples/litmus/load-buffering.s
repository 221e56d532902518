# Load buffering. Each hart loads a word, and then stores to the word that the other loads. Where a store can pass the load before it, both
# loads can give 1. Here a hart that waits for a load does nothing else. Each hart exits with what it loaded.
#
#   ./logtm run examples/litmus/load-buffering.s --harts 2 --schedule examples/litmus/load-buffering.schedule
        lui     t0, 2
        li      t1, 1
        bnez    a0, second
        lw      a0, 0(t0)
        sw      t1, 0x40(t0)
        li      a7, 93
        ecall
second: lw      a0, 0x40(t0)
        sw      t1, 0(t0)
        li      a7, 93
        ecall
