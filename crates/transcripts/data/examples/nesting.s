# A transaction in a transaction is part of it: its commit makes nothing visible, and an abort takes back the whole.
#
#   ./logtm run examples/nesting.s 0x2000 0x2020
#
# The hart exits with 0. Both words are 0x00000000, though the inner transaction, which stored to the first, had committed.
        li      s1, 0x2000
        li      t0, 1
        tbegin  after
        tbegin  after
        sw      t0, 0(s1)
        tcommit
        sw      t0, 0x20(s1)
        tabort
after:  li      a7, 93          # exit
        li      a0, 0
        ecall
