differs
row 001 column 001
value (-1,0,0,1)/sqrt2^2
corner (0,0,0,1)/sqrt2^0
