# An undo log has room for 113 blocks. The 114th store of a transaction to a further block aborts it.
#
#   ./logtm run examples/full-log.s 0x2000
#
# The hart exits with 1, and the word is 0x00000000.
        li      s1, 0x2000
        li      t0, 114
        tbegin  full
next:   sw      t0, 0(s1)
        addi    s1, s1, 32
        addi    t0, t0, -1
        bnez    t0, next
        tcommit
        li      a0, 0
        j       end
full:   li      a0, 1
end:    li      a7, 93          # exit
        ecall
