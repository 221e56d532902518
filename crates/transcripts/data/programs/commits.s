# Stores 7 to 0x2000 in a transaction, and exits with 0.
    tbegin after
    lui t0, 2
    li t1, 7
    sw t1, 0(t0)
    tcommit
after:
    li a7, 93
    li a0, 0
    ecall
