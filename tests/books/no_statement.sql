:session 1
 
	
