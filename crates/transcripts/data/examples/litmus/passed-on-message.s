# A message that is passed on (ISA2). Hart 0 stores to a word, and then to a flag; hart 1 loads this flag, and then stores to a second one;
# hart 2 loads that, and then the word. Where stores or loads can pass one another, or a store reaches the harts one after another, the news
# can come before the word: hart 1 would exit with 1 and hart 2 with 10. Hart 0 exits with 0, hart 1 with the first flag, hart 2 with ten
# times the second flag and the word. Sequential consistency allows all others: hart 1's 0 or 1 with hart 2's 0, 1 or 11, and 0 with 10.
#
#   ./logtm outcomes examples/litmus/passed-on-message.s --harts 3
        lui     t0, 2
        li      t1, 1
        li      t4, 10
        bnez    a0, others
        sw      t1, 0(t0)       # the word
        sw      t1, 0x40(t0)    # the first flag
        li      a7, 93
        ecall
others: bne     a0, t1, third
        lw      a0, 0x40(t0)
        sw      t1, 0x80(t0)    # the second flag
        li      a7, 93
        ecall
third:  lw      t2, 0x80(t0)
        lw      t3, 0(t0)
        mul     a0, t2, t4
        add     a0, a0, t3
        li      a7, 93
        ecall
