differs
row 110 column 110
value (0,1,0,0)/sqrt2^0
corner (0,0,0,1)/sqrt2^0
