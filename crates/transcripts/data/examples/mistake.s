# A source that is refused: an immediate has 12 bits, so 2048 is out of its range.
#
#   ./logtm run examples/mistake.s
        li      a7, 93          # exit
        addi    a0, zero, 2048
        ecall
