# Moves 5 from the word at 0x2000 to the word at 0x2040, in one transaction.
#
#   ./logtm run examples/learn/transfer.s 0x2000 0x2040
#
# The hart exits with 0, and the words are 15 (0x0000000f) and 5.
        li      s1, 0x2000
        li      t0, 20
        sw      t0, 0(s1)       # the first account begins with 20
        tbegin  again
        lw      t0, 0(s1)
        addi    t0, t0, -5
        sw      t0, 0(s1)
        lw      t1, 0x40(s1)
        addi    t1, t1, 5
        sw      t1, 0x40(s1)
        tcommit
        li      a7, 93          # exit
        li      a0, 0
        ecall
again:  nop                     # where the hart goes on after an abort
