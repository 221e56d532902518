# Two transactions that abort each for the other, though no third runs any more. Harts 0 to 3 begin in this order, and a later one aborts for a
# conflict only where it has refused an earlier one, and an earlier one has refused it. Hart 2 refuses hart 1, which aborts since hart 0 has
# refused it too; then hart 2 is refused by hart 0 and hart 3, but hart 0's answer is still on its way when hart 0 has committed and hart 3 has
# seen what it stored. Then hart 3 is refused by hart 2 and aborts, and hart 2 aborts once the answers come.
#
#   ./logtm run examples/schedules/abort-together.s --harts 4 --schedule examples/schedules/abort-together.schedule
#   ./logtm outcomes examples/schedules/abort-together.s --harts 4
#
# A hart exits with 0 if its transaction was committed, and 10 if it was aborted; hart 3 adds 1 if it saw hart 0's store before it began.
        lui     s0, 2
        li      s1, 1
        li      s2, 2
        beqz    a0, first
        beq     a0, s1, second
        beq     a0, s2, third
        lw      t0, 0(s0)       # hart 3 has an old copy of the first block
        lw      t2, 0x80(s0)    # what hart 0 has stored
        tbegin  gone
        lw      t0, 0(s0)
        lw      t0, 0x60(s0)    # hart 2 refuses
        tcommit
        j       end
first:  tbegin  gone
        lw      t0, 0(s0)
        lw      t0, 0x20(s0)
        lw      t0, 0x40(s0)    # hart 1 refuses
        sw      s1, 0x80(s0)
        tcommit
        j       end
second: tbegin  gone
        sw      s1, 0x40(s0)
        sw      s1, 0x20(s0)    # harts 0 and 2 refuse
        tcommit
        j       end
third:  tbegin  gone
        lw      t0, 0x20(s0)
        sw      s1, 0x60(s0)
        sw      s1, 0(s0)       # harts 0 and 3 refuse
        tcommit
        j       end
gone:   addi    t2, t2, 10
end:    mv      a0, t2
        li      a7, 93
        ecall
