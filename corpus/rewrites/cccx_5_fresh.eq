differs
row 00110 column 00110
value (0,0,0,0)/sqrt2^0
corner (0,0,0,1)/sqrt2^0
