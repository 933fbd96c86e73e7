differs
row 00000001 column 00000001
value (0,0,0,0)/sqrt2^0
corner (0,0,0,1)/sqrt2^0
