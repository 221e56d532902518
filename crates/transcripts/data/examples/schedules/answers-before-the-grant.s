# Harts 0 to 3 share a block, which hart 3 has read in a transaction. Hart 0 asks to store to it, and all three answers arrive before the
# directory's grant: two harts give their lines up, hart 3 refuses. So hart 0's request fails at the grant; it asks again after hart 3's commit.
# Hart 3 reads 0 twice and exits with the sum, 0, as all do; the word is 9 at the end.
#
#   ./logtm run examples/schedules/answers-before-the-grant.s --harts 4 --schedule examples/schedules/answers-before-the-grant.schedule 0x2000
        lui     t0, 2
        li      t2, 3
        beq     a0, t2, last
        lw      t1, 0(t0)
        bnez    a0, done
        li      t1, 9
        sw      t1, 0(t0)
done:   li      a7, 93          # exit
        li      a0, 0
        ecall
last:   tbegin  last
        lw      t1, 0(t0)
        lw      t2, 0(t0)
        tcommit
        add     a0, t1, t2
        li      a7, 93
        ecall
