USE shop
