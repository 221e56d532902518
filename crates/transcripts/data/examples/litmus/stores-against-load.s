# Two stores against a store and a load (R). Hart 0 stores to two words; hart 1 stores to the second, and then loads the first. Where a store
# waits in a buffer, hart 1's can come last though its load gives 0: the second word would be 2 while hart 1 exits with 0. Hart 0 exits with
# 0, hart 1 with what it loaded. Sequential consistency allows 0 with the word 1, and 1 with the word 1 or 2.
#
#   ./logtm outcomes examples/litmus/stores-against-load.s --harts 2 0x2040
        lui     t0, 2
        li      t1, 1
        li      t2, 2
        bnez    a0, second
        sw      t1, 0(t0)
        sw      t1, 0x40(t0)
        li      a0, 0
        li      a7, 93
        ecall
second: sw      t2, 0x40(t0)
        lw      a0, 0(t0)
        li      a7, 93
        ecall
