# Adds a1, the number of harts, to the word at 0x2000, and exits with 0.
    lui t0, 2
    amoadd.w a0, a1, (t0)
    li a7, 93
    li a0, 0
    ecall
