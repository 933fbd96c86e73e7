differs
row 000 column 100
value (0,0,-1,1)/sqrt2^2
corner (0,0,1,1)/sqrt2^2
