:session 1
USE shop
CREATE TABLE item (id INT PRIMARY KEY, name VARCHAR(20) NOT NULL, price BIGINT)
INSERT item VALUES (1, 'pen', 120), (2, 'ink', 450), (3, 'paper', NULL)
CREATE DATABASE monday ON (NAME = shop_data, FILENAME = 'monday.ss') AS SNAPSHOT OF shop
UPDATE item SET price = price * 2 WHERE price < 400
DELETE item WHERE name <> 'paper'
SELECT name, price FROM item
USE monday
SELECT name, price FROM item ORDER BY price DESC
SELECT COUNT(*), SUM(price) FROM item
