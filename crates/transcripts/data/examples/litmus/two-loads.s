# Two loads of one word. Hart 0 stores to it, and hart 1 loads it twice. Where a copy can be older than one that was there before, hart 1 can
# see 1 and then 0, and would exit with 10. It exits with ten times the first and the second.
#
#   ./logtm run examples/litmus/two-loads.s --harts 2 --schedule examples/litmus/two-loads.schedule
        lui     t0, 2
        li      t1, 1
        bnez    a0, second
        sw      t1, 0(t0)
        li      a0, 0
        li      a7, 93
        ecall
second: lw      t2, 0(t0)
        lw      t3, 0(t0)
        li      t4, 10
        mul     a0, t2, t4
        add     a0, a0, t3
        li      a7, 93
        ecall
