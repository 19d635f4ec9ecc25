:session 1
USE order
