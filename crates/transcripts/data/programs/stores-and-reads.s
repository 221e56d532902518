# Hart 0 stores 5 to 0x2000; the others load it. Each exits with 0.
    lui t0, 2
    bnez a0, others
    li t1, 5
    sw t1, 0(t0)
    li a7, 93
    li a0, 0
    ecall
others:
    lw t1, 0(t0)
    li a7, 93
    li a0, 0
    ecall
