# From a read to a write (RWC). Hart 0 stores to a word; hart 1 loads it, and then another; hart 2 stores to that other, and then loads the
# first. Where a store waits in a buffer, or reaches the harts one after another, hart 1 can see the first store and not the second while
# hart 2 sees nothing of the first: hart 1 would exit with 10 and hart 2 with 0. Hart 0 exits with 0, hart 1 with ten times the first word
# and the second, hart 2 with the first. Sequential consistency allows all others: hart 1's 0, 1 or 11 with hart 2's 0 or 1, and 10 with 1.
#
#   ./logtm outcomes examples/litmus/read-to-write.s --harts 3
        lui     t0, 2
        li      t1, 1
        li      t4, 10
        bnez    a0, others
        sw      t1, 0(t0)
        li      a7, 93
        ecall
others: bne     a0, t1, third
        lw      t2, 0(t0)       # the first word
        lw      t3, 0x40(t0)    # the second
        mul     a0, t2, t4
        add     a0, a0, t3
        li      a7, 93
        ecall
third:  sw      t1, 0x40(t0)
        lw      a0, 0(t0)
        li      a7, 93
        ecall
