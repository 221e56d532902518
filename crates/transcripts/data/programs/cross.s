# In a transaction, hart 0 stores 1 to 0x2000 and then to 0x2040, and the others store 2 to 0x2040 and then to 0x2000.
# Hart 0 then begins another transaction and commits it. Each exits with 0.
    lui t0, 2
    bnez a0, others
first:
    tbegin first
    li t1, 1
    sw t1, 0(t0)
    sw t1, 0x40(t0)
    tcommit
    tbegin after
    tcommit
after:
    li a7, 93
    li a0, 0
    ecall
others:
    tbegin others
    li t1, 2
    sw t1, 0x40(t0)
    sw t1, 0(t0)
    tcommit
    li a7, 93
    li a0, 0
    ecall
