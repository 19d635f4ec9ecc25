:session 1
USE shop
CREATE TABLE t (id INT PRIMARY KEY, v INT)
INSERT t VALUES (1, 10)
CREATE DATABASE before ON (NAME = shop_data, FILENAME = 'before.ss') AS SNAPSHOT OF shop
UPDATE t SET v = 11
USE before
SELECT * FROM t
