# A block that a transaction has stored to leaves a small cache when the next one needs its place. It is still this hart's, and still undone
# by an abort.
#
#   ./logtm run examples/spill.s --cache small 0x2000 0x2040
#
# The hart exits with 0, and both words are 0x00000000.
        li      s1, 0x2000
        li      t0, 7
        tbegin  after
        sw      t0, 0(s1)
        sw      t0, 0x40(s1)    # of the same set: block 0x2000 is spilled
        lw      a0, 0(s1)
        tabort
after:  lw      a0, 0(s1)
        li      a7, 93          # exit
        ecall
