# Puts out an H and the end of a line, and exits with 0.
    li a7, 1
    li a0, 72
    ecall
    li a0, 10
    ecall
    li a7, 93
    li a0, 0
    ecall
