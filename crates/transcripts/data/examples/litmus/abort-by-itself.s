# A transaction that aborts by itself. Hart 0 stores 1 to a word in a transaction, and aborts it; then it stores 2 to a second one in place.
# Hart 1 loads the second word, and then the first. Where an aborted store can be seen, hart 1 can see 1. It exits with ten times the second
# word and the first; hart 0 exits with 0. Strong isolation allows 0 and 20, and the first word is 0.
#
#   ./logtm outcomes examples/litmus/abort-by-itself.s --harts 2 0x2000
        lui     t0, 2
        li      t1, 1
        bnez    a0, second
        tbegin  after
        sw      t1, 0(t0)
        tabort
after:  li      t1, 2
        sw      t1, 0x40(t0)
        li      a7, 93
        ecall
second: lw      t2, 0x40(t0)
        lw      t3, 0(t0)
        li      t4, 10
        mul     a0, t2, t4
        add     a0, a0, t3
        li      a7, 93
        ecall
