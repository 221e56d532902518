nop
