# Exits with 0.
    li a7, 93
    li a0, 0
    ecall
