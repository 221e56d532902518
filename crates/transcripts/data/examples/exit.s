# The shortest program: it exits with 0.
#
#   ./logtm run examples/exit.s
        li      a7, 93
        li      a0, 0
        ecall
