:session 1
USE shop;
