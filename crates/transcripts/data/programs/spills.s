# Stores 7 and then 9 to 0x2000 in a transaction, with a load from 0x2040 between them, aborts it, and exits with 0.
    tbegin after
    lui t0, 2
    li t1, 7
    sw t1, 0(t0)
    lw t2, 0x40(t0)
    li t1, 9
    sw t1, 0(t0)
    tabort
after:
    li a7, 93
    li a0, 0
    ecall
