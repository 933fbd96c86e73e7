differs
row 000000 column 000011
value (1,-1,0,0)/sqrt2^2
corner (-1,0,0,1)/sqrt2^2
