# From a write to a read (WRC). Hart 0 stores to a word; hart 1 loads it, and then stores to a flag; hart 2 loads the flag, and then the word.
# Where a store reaches the harts one after another, hart 2 can see the flag and not the word that hart 1 had seen before it: hart 1 would
# exit with 1 and hart 2 with 10. Hart 0 exits with 0, hart 1 with the word, hart 2 with ten times the flag and the word. Sequential
# consistency allows all others: hart 1's 0 or 1 with hart 2's 0, 1 or 11, and 0 with 10.
#
#   ./logtm outcomes examples/litmus/write-to-read.s --harts 3
        lui     t0, 2
        li      t1, 1
        li      t4, 10
        bnez    a0, others
        sw      t1, 0(t0)
        li      a7, 93
        ecall
others: bne     a0, t1, third
        lw      a0, 0(t0)
        sw      t1, 0x40(t0)
        li      a7, 93
        ecall
third:  lw      t2, 0x40(t0)    # the flag
        lw      t3, 0(t0)       # the word
        mul     a0, t2, t4
        add     a0, a0, t3
        li      a7, 93
        ecall
