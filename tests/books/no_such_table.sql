:session 1
USE shop
SELECT * FROM t
