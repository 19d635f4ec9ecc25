:session 2
:session 2
