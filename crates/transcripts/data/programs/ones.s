# 17 words, more than there are breakpoints.
    li t0, 1
    li t0, 1
    li t0, 1
    li t0, 1
    li t0, 1
    li t0, 1
    li t0, 1
    li t0, 1
    li t0, 1
    li t0, 1
    li t0, 1
    li t0, 1
    li t0, 1
    li t0, 1
    li t0, 1
    li t0, 1
    li t0, 1
