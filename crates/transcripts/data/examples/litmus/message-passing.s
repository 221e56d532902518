# Message passing. Hart 0 stores to a word, and then to a flag; hart 1 loads the flag, and then the word. Where stores or loads can pass one
# another, hart 1 can see the flag and the old word, and would exit with 10. Hart 1 exits with ten times the flag and the word.
#
#   ./logtm run examples/litmus/message-passing.s --harts 2 --schedule examples/litmus/message-passing.schedule
        lui     t0, 2
        li      t1, 1
        bnez    a0, second
        sw      t1, 0(t0)       # the word
        sw      t1, 0x40(t0)    # the flag
        li      a0, 0
        li      a7, 93
        ecall
second: lw      t2, 0(t0)       # an old copy of the word
        lw      t3, 0x40(t0)
        lw      t2, 0(t0)
        li      t4, 10
        mul     a0, t3, t4
        add     a0, a0, t2
        li      a7, 93
        ecall
