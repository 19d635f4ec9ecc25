:session 1
CREATE DATABASE s1 ON (NAME = shop_data, FILENAME = '.ss') AS SNAPSHOT OF shop
