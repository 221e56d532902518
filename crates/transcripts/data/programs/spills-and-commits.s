# Hart 0 stores 7 to 0x2000 and loads from 0x2040 in a transaction, and commits it; the others load the word at 0x2000. Each exits with 0.
    lui t0, 2
    bnez a0, others
    tbegin after
    li t1, 7
    sw t1, 0(t0)
    lw t2, 0x40(t0)
    tcommit
after:
    li a7, 93
    li a0, 0
    ecall
others:
    lw t1, 0(t0)
    li a7, 93
    li a0, 0
    ecall
