differs
row 01 column 01
value (0,0,-1,0)/sqrt2^0
corner (0,0,0,1)/sqrt2^0
