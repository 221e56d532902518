# Two harts, each of which stores to a word of its own in a transaction, and then wants the other's, as in conflict.s; but after an abort a hart
# gives up. Each exits with 0 if its transaction was committed, and with 1 if it was aborted. The last outcome, in which both are aborted, is
# one that no run shows: the transaction that begins first isn't aborted for a conflict, but the search keeps no stamps.
#
#   ./logtm outcomes examples/both-abort.s --harts 2 0x2000 0x2020
        lui     s1, 2
        slli    s2, a0, 5
        add     s2, s1, s2      # this hart's word
        xori    s3, a0, 1
        slli    s3, s3, 5
        add     s3, s1, s3      # the other's
        li      t0, 1
        tbegin  aborted
        sw      t0, 0(s2)
        lw      t1, 0(s3)
        tcommit
        li      a0, 0
        li      a7, 93          # exit
        ecall
aborted:
        li      a0, 1
        li      a7, 93          # exit
        ecall
