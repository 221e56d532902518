# A bank of three accounts with 100 in all. Hart i moves 40 from account i to the next one (from the last to the first), if it has so much,
# and adds up all three accounts, in one transaction; after an abort it tries again. A hart exits with the sum that it saw. In each outcome
# that is 100, and the accounts' sum is 100 (0x64); which of the moves are made depends on their order.
#
#   ./logtm outcomes examples/bank.s --harts 2 0x2000 0x2020 0x2040
#   ./logtm outcomes examples/bank.s --harts 3 0x2000 0x2020 0x2040
        la      s0, first
        slli    s1, a0, 5
        add     s1, s0, s1      # the account to move from
        addi    s2, s1, 0x20    # the next one
        li      t0, 2
        bne     a0, t0, try
        mv      s2, s0
try:    tbegin  try
        lw      t0, 0(s1)
        addi    t0, t0, -40
        bltz    t0, sum
        sw      t0, 0(s1)
        lw      t0, 0(s2)
        addi    t0, t0, 40
        sw      t0, 0(s2)
sum:    lw      a0, 0(s0)
        lw      t0, 0x20(s0)
        add     a0, a0, t0
        lw      t0, 0x40(s0)
        add     a0, a0, t0
        tcommit
        li      a7, 93          # exit
        ecall
        .data
first:  .word   50
        .balign 32
        .word   30
        .balign 32
        .word   20
