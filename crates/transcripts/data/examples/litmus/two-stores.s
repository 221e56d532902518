# Two stores to one word (CoWW). Hart 0 stores 1 to a word, and then 2; hart 1 loads it. Where stores of one hart to one word can pass each
# other, the word can be 1 at the end. Hart 0 exits with 0, hart 1 with what it loaded. Sequential consistency allows 0, 1 and 2, each with
# the word 2.
#
#   ./logtm outcomes examples/litmus/two-stores.s --harts 2 0x2000
        lui     t0, 2
        li      t1, 1
        li      t2, 2
        bnez    a0, second
        sw      t1, 0(t0)
        sw      t2, 0(t0)
        li      a7, 93
        ecall
second: lw      a0, 0(t0)
        li      a7, 93
        ecall
