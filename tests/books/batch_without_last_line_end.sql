:session 1
SELECT * FROM