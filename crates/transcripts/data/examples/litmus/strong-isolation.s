# A transaction beside plain accesses. Hart 0 stores 1 and then 2 to a word in a transaction; hart 1 loads it, in none. Where isolation holds
# among transactions alone, hart 1 can see 1. Here it is refused until the transaction is over. Hart 1 exits with what it loaded.
#
#   ./logtm run examples/litmus/strong-isolation.s --harts 2 --schedule examples/litmus/strong-isolation.schedule
        lui     t0, 2
        bnez    a0, second
first:  tbegin  first
        li      t1, 1
        sw      t1, 0(t0)
        li      t1, 2
        sw      t1, 0(t0)
        tcommit
        li      a0, 0
        li      a7, 93
        ecall
second: lw      a0, 0(t0)
        li      a7, 93
        ecall
