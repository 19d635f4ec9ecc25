:session 1
USE shap
USE master
USE SHOP
