# Where each hart begins: with its number i in a0, the number of harts n in a1, and its stack in sp. It lays its thread-local storage at the top of
# its stack, and goes on in C.
        .text
        .globl  _start
_start:
        slli    t0, a0, 12              # the stacks begin 4096 n bytes below the top of hart 0's
        add     t0, t0, sp
        slli    t1, a1, 12
        sub     t0, t0, t1
        la      t1, __stack_power
        li      t2, 12
        beq     t1, t2, .Lstack
        sll     t2, a0, t1              # larger stacks lie below those that the machine gives
        sub     sp, t0, t2
        sll     t2, a1, t1
        sub     t0, t0, t2
.Lstack:
        li      t3, 1
        sll     t3, t3, t1
        sub     t3, sp, t3              # the lowest address of the stack
        la      t1, __tls_size
        sub     sp, sp, t1
        mv      tp, sp
        la      t1, __tdata_start       # copies what isn't 0 at the start; a stack is 0
        la      t2, __tdata_end
        mv      t4, tp
.Lcopy: bgeu    t1, t2, .Lcopied
        lw      t5, 0(t1)
        sw      t5, 0(t4)
        addi    t1, t1, 4
        addi    t4, t4, 4
        j       .Lcopy
.Lcopied:
        lui     t1, %tprel_hi(logtm_hart)
        add     t1, t1, tp, %tprel_add(logtm_hart)
        addi    t1, t1, %tprel_lo(logtm_hart)
        sw      a0, 0(t1)
        sw      a1, 4(t1)
        sw      t0, 8(t1)
        sw      t3, 12(t1)
        tail    logtm_start
