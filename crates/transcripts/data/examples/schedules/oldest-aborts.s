# A transaction aborts for a conflict, though it is the only one that runs by then, and so the oldest. Harts 0, 1 and 2 begin in this order. Hart 1 is
# refused by hart 0 and hart 2, and aborts since it has refused hart 0; so hart 2 has refused an earlier one. Then hart 0 refuses hart 2, and commits
# while its answer is still on its way. When the answer comes, an earlier one has refused hart 2, and it aborts, though hart 0 has ended. No conflict
# aborts a transaction that is the earliest as it begins; hart 2's wasn't.
#
#   ./logtm run examples/schedules/oldest-aborts.s --harts 3 --schedule examples/schedules/oldest-aborts.schedule 0x2020 0x2040
#
# A hart exits with 0 if its transaction was committed, and with 1 if it was aborted.
        lui     s0, 2
        li      s1, 1
        beqz    a0, first
        beq     a0, s1, second
        tbegin  gone
        lw      t0, 0(s0)
        sw      s1, 0x20(s0)    # hart 0 refuses
        tcommit
        j       end
first:  tbegin  gone
        lw      t0, 0(s0)
        sw      s1, 0x20(s0)
        sw      s1, 0x40(s0)    # hart 1 refuses
        tcommit
        j       end
second: tbegin  gone
        sw      s1, 0x40(s0)
        sw      s1, 0(s0)       # harts 0 and 2 refuse
        tcommit
        j       end
gone:   li      t2, 1
end:    mv      a0, t2
        li      a7, 93          # exit
        ecall
