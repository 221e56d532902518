# A store, and then a load of the same word (CoWR). Hart 0 stores 1 to a word, and loads it; hart 1 stores 2. Where a load can give what was
# there before the hart's own store, hart 0 can see 0, or 2 while the word is 1. It exits with what it loaded, hart 1 with 0. Sequential
# consistency allows 1 with the word 1 or 2, and 2 with the word 2.
#
#   ./logtm outcomes examples/litmus/store-then-load.s --harts 2 0x2000
        lui     t0, 2
        li      t1, 1
        li      t2, 2
        bnez    a0, second
        sw      t1, 0(t0)
        lw      a0, 0(t0)
        li      a7, 93
        ecall
second: sw      t2, 0(t0)
        li      a0, 0
        li      a7, 93
        ecall
