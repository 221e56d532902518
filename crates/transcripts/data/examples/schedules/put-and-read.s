# A read overtakes a write-back. Hart 0 has stored 5 and gives the block up; hart 1's request arrives before the Put, so hart 0 answers it
# with the Put's content. The Put is held until hart 1 is done, and changes nothing then: both harts are sharers by that time.
# Hart 1 exits with the word that it read, 5, and the word in memory is 5.
#
#   ./logtm run examples/schedules/put-and-read.s --harts 2 --schedule examples/schedules/put-and-read.schedule 0x2000
        lui     t0, 2
        bnez    a0, reader
        li      t1, 5
        sw      t1, 0(t0)
        li      a7, 93          # exit
        li      a0, 0
        ecall
reader: lw      a0, 0(t0)
        li      a7, 93
        ecall
