differs
row 0000 column 0100
value (0,0,0,1)/sqrt2^0
corner (0,0,0,0)/sqrt2^0
