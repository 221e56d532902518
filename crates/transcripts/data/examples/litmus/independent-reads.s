# Independent reads of independent writes. Harts 0 and 1 store to a word each; harts 2 and 3 load both, each in its own order. Where a store
# reaches the harts one after another, hart 2 can see only the first store and hart 3 only the second, and both would exit with 10. Harts 2
# and 3 exit with ten times their first load and their second.
#
#   ./logtm run examples/litmus/independent-reads.s --harts 4 --schedule examples/litmus/independent-reads.schedule
        lui     t0, 2
        addi    t5, t0, 0x40
        li      t1, 1
        andi    t6, a0, 1
        beqz    t6, even
        mv      t6, t0          # odd harts have the two words the other way round
        mv      t0, t5
        mv      t5, t6
even:   srli    a0, a0, 1
        bnez    a0, reads
        sw      t1, 0(t0)
        li      a7, 93
        ecall
reads:  lw      t2, 0(t5)       # an old copy of the word that is loaded second
        lw      t2, 0(t0)
        lw      t3, 0(t5)
        li      t4, 10
        mul     a0, t2, t4
        add     a0, a0, t3
        li      a7, 93
        ecall
