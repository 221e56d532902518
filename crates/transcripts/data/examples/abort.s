# An abort gives back the registers and the memory of the transaction's begin.
#
#   ./logtm run examples/abort.s 0x2000
#
# The hart exits with 5, which s0 had before the transaction, and the word is 0x00000000.
        li      s0, 5
        li      s1, 0x2000
        tbegin  after
        li      s0, 7
        sw      s0, 0(s1)
        tabort
after:  mv      a0, s0
        li      a7, 93          # exit
        ecall
