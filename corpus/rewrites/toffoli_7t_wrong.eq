differs
row 000 column 001
value (0,0,1,0)/sqrt2^1
corner (-1,0,0,0)/sqrt2^1
