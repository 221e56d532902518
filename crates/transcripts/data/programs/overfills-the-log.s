# Stores to 114 blocks from 0x2000 on in one transaction, and exits with 0.
    tbegin after
    lui t0, 2
    li t1, 114
next:
    sw t1, 0(t0)
    addi t0, t0, 32
    addi t1, t1, -1
    bnez t1, next
    tcommit
after:
    li a7, 93
    li a0, 0
    ecall
