# _ITM_beginTransaction answers again where its transaction is cancelled or runs alone from its begin on, so it keeps the registers of the call.
        .text
        .globl  _ITM_beginTransaction
_ITM_beginTransaction:
        addi    sp, sp, -64
        sw      s0, 0(sp)
        sw      s1, 4(sp)
        sw      s2, 8(sp)
        sw      s3, 12(sp)
        sw      s4, 16(sp)
        sw      s5, 20(sp)
        sw      s6, 24(sp)
        sw      s7, 28(sp)
        sw      s8, 32(sp)
        sw      s9, 36(sp)
        sw      s10, 40(sp)
        sw      s11, 44(sp)
        sw      ra, 48(sp)
        addi    t0, sp, 64
        sw      t0, 52(sp)
        mv      a1, sp
        call    logtm_begin
        lw      ra, 48(sp)
        addi    sp, sp, 64
        ret

# logtm_resume(begin, actions): the begin answers with these actions.
        .globl  logtm_resume
logtm_resume:
        lw      s0, 0(a0)
        lw      s1, 4(a0)
        lw      s2, 8(a0)
        lw      s3, 12(a0)
        lw      s4, 16(a0)
        lw      s5, 20(a0)
        lw      s6, 24(a0)
        lw      s7, 28(a0)
        lw      s8, 32(a0)
        lw      s9, 36(a0)
        lw      s10, 40(a0)
        lw      s11, 44(a0)
        lw      ra, 48(a0)
        lw      sp, 52(a0)
        mv      a0, a1
        ret
