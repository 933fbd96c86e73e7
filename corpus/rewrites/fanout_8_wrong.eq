differs
row 01000000 column 01000000
value (0,0,0,0)/sqrt2^0
corner (0,0,0,1)/sqrt2^0
