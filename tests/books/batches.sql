:session 1
USE shop
GO

 	go 
-- nothing here
Go
USE shop
CREATE TABLE t (id INT PRIMARY KEY) /* a table
 GO on */
