# A queue with room for one item, which is put and taken in transactions. Hart 0 puts the letters A, B and C; hart 1 takes three, and puts
# them out. Who finds the queue full or empty aborts, and tries again. In each outcome hart 1 puts out ABC.
#
#   ./logtm outcomes examples/queue.s --harts 2
        lui     s0, 2           # whether there is an item, and behind it the item
        li      s1, 3
        li      s2, 65          # the letter A
        li      t1, 1
        bnez    a0, take
put:    tbegin  put
        lw      t0, 0(s0)
        bnez    t0, again
        sw      t1, 0(s0)
        sw      s2, 4(s0)
        tcommit
        addi    s2, s2, 1
        addi    s1, s1, -1
        bnez    s1, put
        j       end
take:   tbegin  take
        lw      t0, 0(s0)
        beqz    t0, again
        lw      a0, 4(s0)
        sw      zero, 0(s0)
        tcommit
        li      a7, 1           # put out a byte
        ecall
        addi    s1, s1, -1
        bnez    s1, take
end:    li      a0, 0
        li      a7, 93          # exit
        ecall
again:  tabort
