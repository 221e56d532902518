# Stores 7 to 0x2000, and exits with 0.
    lui t0, 2
    li t1, 7
    sw t1, 0(t0)
    li a7, 93
    li a0, 0
    ecall
