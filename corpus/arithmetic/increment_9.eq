differs
row 000000000 column 000000010
value (0,0,0,1)/sqrt2^0
corner (0,0,0,0)/sqrt2^0
