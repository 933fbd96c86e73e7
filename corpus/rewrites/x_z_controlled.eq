differs
row 10 column 10
value (0,0,0,-1)/sqrt2^0
corner (0,0,0,1)/sqrt2^0
