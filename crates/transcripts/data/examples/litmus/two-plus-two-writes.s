# Two harts store to two words, in opposite orders (2+2W). Where stores can pass one another, both words can keep what was stored first, and
# would be 1 and 1. Each hart exits with 0. Sequential consistency allows the words 2 and 1, 1 and 2, and 2 and 2.
#
#   ./logtm outcomes examples/litmus/two-plus-two-writes.s --harts 2 0x2000 0x2040
        lui     t0, 2
        li      t1, 1
        li      t2, 2
        bnez    a0, second
        sw      t1, 0(t0)
        sw      t2, 0x40(t0)
        j       end
second: sw      t1, 0x40(t0)
        sw      t2, 0(t0)
end:    li      a0, 0
        li      a7, 93
        ecall
