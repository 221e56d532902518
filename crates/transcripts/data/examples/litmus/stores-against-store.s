# Two stores against a load and a store (S). Hart 0 stores to two words; hart 1 loads the second, and then stores to the first. Where stores
# can pass one another, or what is before them, hart 1 can see hart 0's second store and still be overtaken by its first: hart 1 would exit
# with 1 while the first word is 2. Hart 0 exits with 0, hart 1 with what it loaded. Sequential consistency allows 0 with the word 1 or 2,
# and 1 with the word 1.
#
#   ./logtm outcomes examples/litmus/stores-against-store.s --harts 2 0x2000
        lui     t0, 2
        li      t1, 1
        li      t2, 2
        bnez    a0, second
        sw      t2, 0(t0)
        sw      t1, 0x40(t0)
        li      a0, 0
        li      a7, 93
        ecall
second: lw      a0, 0x40(t0)
        sw      t1, 0(t0)
        li      a7, 93
        ecall
