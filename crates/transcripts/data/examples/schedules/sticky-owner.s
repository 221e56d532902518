# A transaction has stored to a block that then left its small cache. The directory still names hart 0 as the owner, so hart 1's request is
# forwarded to it, and refused, until the transaction commits; then hart 0 answers without data, since memory has it.
# Hart 1 exits with the word that it read at last, 7.
#
#   ./logtm run examples/schedules/sticky-owner.s --harts 2 --cache small --schedule examples/schedules/sticky-owner.schedule 0x2000
        lui     t0, 2
        bnez    a0, reader
        tbegin  done
        li      t1, 7
        sw      t1, 0(t0)
        lw      t2, 0x40(t0)    # of the same set: block 0x2000 is spilled
        tcommit
done:   li      a7, 93          # exit
        li      a0, 0
        ecall
reader: lw      a0, 0(t0)
        li      a7, 93
        ecall
