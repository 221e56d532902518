# Hart 0 loads the word at 0x2000 and reserves its block, and stores 5 to it if it still may. Hart 1 stores 1 to it.
# Hart 0 exits with ten times what it has loaded, and 1 more if it hasn't stored. Had it loaded 0 and stored, and hart 1 in between, 5 would remain.
#
#   ./logtm outcomes examples/litmus/store-between.s --harts 2 0x2000
        li      s0, 0x2000
        li      a7, 93
        bnez    a0, other
        li      t2, 5
        lr.w    t0, (s0)
        sc.w    t1, t2, (s0)
        li      t2, 10
        mul     a0, t0, t2
        add     a0, a0, t1
        ecall
other:  sw      a0, 0(s0)
        li      a0, 0
        ecall
