:session 1
USE shop
CREATE TABLE t (id INT PRIMARY KEY, v INT)
INSERT t VALUES (1, 10)
:session 2
CREATE DATABASE report ON (NAME = shop_data, FILENAME = 'report.ss') AS SNAPSHOT OF shop
USE report
SELECT * FROM t
:session 3
USE shop
UPDATE t SET v = 0
:schedule
1! 1! 1! 2! 3! 3! 2!
