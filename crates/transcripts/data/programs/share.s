# Each hart loads the word at 0x2000, hart 3 in a transaction; hart 0 then stores it. Each exits with 0.
    lui t0, 2
    li t2, 3
    beq a0, t2, last
    lw t1, 0(t0)
    bnez a0, done
    sw t1, 0(t0)
done:
    li a7, 93
    li a0, 0
    ecall
last:
    tbegin last
    lw t1, 0(t0)
    tcommit
    li a7, 93
    li a0, 0
    ecall
