# Adds 1 to the word at 0x2000 a hundred times, each time in a transaction, and exits with 0.
    li s0, 100
    lui s1, 2
again:
    tbegin 0
    lw t0, 0(s1)
    addi t0, t0, 1
    sw t0, 0(s1)
    tcommit
    addi s0, s0, -1
    bnez s0, again
    li a7, 93
    li a0, 0
    ecall
