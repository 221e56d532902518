# A stack without a lock, by LR and SC. Its top stands at 0x2000: the address of a node of two words, its value and the node below, or 0. Each hart
# pushes twenty nodes, then takes twenty off, and adds up their values at 0x2020. Between LR and SC stand neither loads nor stores, as the manual wants
# it of a loop that has to end (8.3). No node is pushed twice: so a top that is the same as before has the same node below.
#
#   ./logtm run examples/stack.s --harts 4 0x2000 0x2020
#
# All four exit with 0, the stack is empty, and the sum is 0x00000348, which is 840: each value from 1 to 20 four times.
        li      s0, 0x2000
        slli    s1, a0, 10
        li      t0, 0x3000
        add     s1, s1, t0      # the first of the hart's nodes, 32 bytes each
        li      s2, 20
push:   sw      s2, 0(s1)
link:   lw      t0, 0(s0)
        sw      t0, 4(s1)       # the node below
        lr.w    t1, (s0)
        bne     t1, t0, link    # another hart was here
        sc.w    t1, s1, (s0)
        bnez    t1, link
        addi    s1, s1, 32
        addi    s2, s2, -1
        bnez    s2, push
        li      s2, 20
pop:    lw      t0, 0(s0)       # the stack is never empty here: no hart takes more than it has pushed
        lw      t2, 4(t0)
        lr.w    t1, (s0)
        bne     t1, t0, pop
        sc.w    t1, t2, (s0)
        bnez    t1, pop
        lw      t2, 0(t0)
        addi    t1, s0, 32
        amoadd.w zero, t2, (t1)
        addi    s2, s2, -1
        bnez    s2, pop
        li      a7, 93          # exit
        li      a0, 0
        ecall
