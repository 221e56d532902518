# Two transactions, each of which has stored to a block that the other wants next. Hart 1, which began later, has refused an earlier one; when
# it is refused by that one in turn there may be a cycle, so it aborts. Hart 0 then gets its second block and commits, and hart 1 tries again.
# Both exit with 0, and both words are 2: hart 1 was the last to commit.
#
#   ./logtm run examples/schedules/later-aborts.s --harts 2 --schedule examples/schedules/later-aborts.schedule 0x2000 0x2040
        lui     t0, 2
        bnez    a0, later
early:  tbegin  early
        li      t1, 1
        sw      t1, 0(t0)
        sw      t1, 0x40(t0)
        tcommit
        li      a7, 93          # exit
        li      a0, 0
        ecall
later:  tbegin  later
        li      t1, 2
        sw      t1, 0x40(t0)
        sw      t1, 0(t0)
        tcommit
        li      a7, 93
        li      a0, 0
        ecall
