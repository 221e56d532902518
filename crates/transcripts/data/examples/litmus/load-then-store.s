# A load, and then a store to the same word (CoRW). Hart 0 loads a word, and stores 1 to it; hart 1 stores 2. Where the store can pass the
# load, hart 0 can see its own 1; where it can pass hart 1's store, it can see 2 while the word is 2 at the end. It exits with what it
# loaded, hart 1 with 0. Sequential consistency allows 0 with the word 1 or 2, and 2 with the word 1.
#
#   ./logtm outcomes examples/litmus/load-then-store.s --harts 2 0x2000
        lui     t0, 2
        li      t1, 1
        li      t2, 2
        bnez    a0, second
        lw      a0, 0(t0)
        sw      t1, 0(t0)
        li      a7, 93
        ecall
second: sw      t2, 0(t0)
        li      a0, 0
        li      a7, 93
        ecall
