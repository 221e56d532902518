# Hart 0 stores 5 to 0x2000; the others store 6 there. Each exits with 0.
    lui t0, 2
    bnez a0, others
    li t1, 5
    sw t1, 0(t0)
    li a7, 93
    li a0, 0
    ecall
others:
    li t1, 6
    sw t1, 0(t0)
    li a7, 93
    li a0, 0
    ecall
