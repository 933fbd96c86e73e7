differs
row 0000000000 column 1111111100
value (0,0,1,0)/sqrt2^1
corner (-1,0,0,0)/sqrt2^1
