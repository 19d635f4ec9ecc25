:session 1
USE shop
CREATE TABLE t (id INT PRIMARY KEY, v INT)
INSERT t VALUES (1, 10)
UPDATE t SET v = 11
UPDATE t SET v = 12
:session 2
CREATE DATABASE s1 ON (NAME = shop_data, FILENAME = 's1.ss') AS SNAPSHOT OF shop
USE s1
SELECT * FROM t
:schedule
1! 1! 1! 1! 2! 1!
