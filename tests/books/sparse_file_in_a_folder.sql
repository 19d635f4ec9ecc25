:session 1
create database S1 on (name = SHOP_DATA, filename = 'C:\data\s.ss') as snapshot of SHOP
CREATE DATABASE s2 ON (NAME = shop_data, FILENAME = 's.ss') AS SNAPSHOT OF shop
CREATE DATABASE s2 ON (NAME = shop_data, FILENAME = '/other/s.ss') AS SNAPSHOT OF shop
CREATE DATABASE s2 ON (NAME = shop_data, FILENAME = 'C:\data\S.ss') AS SNAPSHOT OF shop
USE s1
USE s2
