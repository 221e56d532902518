# A write overtakes a write-back. Hart 0 has stored 5 and gives the block up; hart 1's request arrives before the Put, so hart 1 is given the
# block by hart 0, stores 6, and gives it up too. Its Put arrives first, and hart 0's, which is older, must not overwrite it.
# Both exit with 0, and the word is 6.
#
#   ./logtm run examples/schedules/put-and-write.s --harts 2 --schedule examples/schedules/put-and-write.schedule 0x2000
        lui     t0, 2
        bnez    a0, writer
        li      t1, 5
        sw      t1, 0(t0)
        li      a7, 93          # exit
        li      a0, 0
        ecall
writer: li      t1, 6
        sw      t1, 0(t0)
        li      a7, 93
        li      a0, 0
        ecall
