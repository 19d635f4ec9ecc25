-- Session 1 makes a table; session 2 changes its row and reads it before session 1 leaves.
:session 1
USE shop
CREATE TABLE t (id INT PRIMARY KEY, v INT)
INSERT t VALUES (1, 10)
:session 2
USE shop
UPDATE t SET v = 20
SELECT * FROM t

:schedule
1! 1! 2 1
0 2@change 2!
