differs
row 000000 column 000001
value (0,0,0,1)/sqrt2^1
corner (0,0,0,1)/sqrt2^1
