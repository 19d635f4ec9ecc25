:session 1
USE shop
:session 2
USE shop
:schedule
2! 0 2@change
