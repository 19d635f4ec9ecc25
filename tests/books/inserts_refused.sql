:session 1
USE shop
CREATE TABLE t (id INT PRIMARY KEY, v INT, s VARCHAR(3))
INSERT u VALUES (1)
INSERT t (id, w) VALUES (1, 2)
INSERT t (id, id) VALUES (1, 2)
INSERT t (id) VALUES (1, 2)
INSERT t VALUES (1, 2)
INSERT t VALUES (1, 'a', 'b')
INSERT t (id, w) VALUES ('a', 2)
INSERT t VALUES (1, 1, 'abcd'), (NULL, 1, 'a')
INSERT t VALUES (NULL, 1, 'abcd')
INSERT t VALUES (2147483647 + 1, 1, 'abcd')
INSERT t VALUES (1, 1, 'a'), (2, 2, 'b'), (1, 3, 'c')
SELECT COUNT(*) FROM t
INSERT t (s, id) VALUES ('a', 2), (NULL, 1)
SELECT * FROM t
INSERT t VALUES (3, 1 + 2 * 3, NULL), (2, 1, NULL)
INSERT t VALUES (3, 1 + 2 * 3, NULL)
SELECT v FROM t WHERE id = 3
