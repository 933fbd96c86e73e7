equivalent
scalar (0,0,-1,0)/sqrt2^0
