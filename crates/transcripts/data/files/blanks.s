	 nop 	
