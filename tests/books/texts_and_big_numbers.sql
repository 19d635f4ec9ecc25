:session 1
USE shop
CREATE TABLE w (name VARCHAR(5) NOT NULL, n BIGINT, k INT NOT NULL, PRIMARY KEY (k, name))
INSERT w VALUES ('b', 9223372036854775807, 1), ('a', -9223372036854775807 - 1, 1), ('', NULL, 0)
SELECT * FROM w
INSERT w (k, name) VALUES (2, 'it''s')
SELECT name, n FROM w WHERE k = 2
INSERT w (k, name) VALUES (3, 'longer')
INSERT w (n) VALUES (1)
INSERT w VALUES ('c', 1, 2147483648)
INSERT w VALUES (1, 1, 1)
INSERT w VALUES ('c', 'd', 1)
UPDATE w SET n = n + 1 WHERE name = 'a'
UPDATE w SET n = n + 1
SELECT n FROM w WHERE k = 1 ORDER BY n
DELETE w WHERE name >= 'b'
SELECT name FROM w ORDER BY name DESC
