differs
row 0000000010001 column 0000000010001
value (0,0,0,0)/sqrt2^0
corner (0,0,0,1)/sqrt2^0
