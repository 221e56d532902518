# A transaction that is aborted, and one that commits: a hart stores 7 to the word at 0x2000 and aborts, looks what is there then, stores 9
# in a second transaction, and commits. It exits with what it saw after the abort.
#
#   ./logtm run examples/transaction.elf 0x2000
#
# GNU as knows no transactions, so each of their three words is written as a number.
        .equ  TBEGIN, 0x0000000b        # with the offset of a branch: where an abort goes on
        .equ  TCOMMIT, 0x0000100b
        .equ  TABORT, 0x0000200b
        .text
        .globl _start
_start: lui   t0, 2                     # t0 is 0x2000
        .word TBEGIN | 16 << 7          # an abort goes on at `after`, 16 bytes on
        li    t1, 7
        sw    t1, 0(t0)
        .word TABORT
after:  lw    a0, 0(t0)                 # 0: the store was rolled back
        .word TBEGIN
        li    t1, 9
        sw    t1, 0(t0)
        .word TCOMMIT
        li    a7, 93                    # exit
        ecall
