:session 1
use shop
create table t (id int primary key, v int)
insert t values (3, 30) insert t values (1, 10) insert t values (2147483647, 5) insert t values (2, 20)
select * from T
