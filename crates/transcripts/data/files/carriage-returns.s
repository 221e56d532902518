nop
	foo	a0
nop
