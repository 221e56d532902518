# No lost update: lost-update.s with a transaction. Each hart adds 1 to a word, and tries again after an abort. Each hart exits with 0.
# Isolation allows only the word 2 for two harts, and 3 for three.
#
#   ./logtm outcomes examples/litmus/no-lost-update.s --harts 2 0x2000
        lui     t0, 2
try:    tbegin  try
        lw      t1, 0(t0)
        addi    t1, t1, 1
        sw      t1, 0(t0)
        tcommit
        li      a0, 0
        li      a7, 93
        ecall
