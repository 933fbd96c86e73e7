equivalent
scalar (0,0,0,1)/sqrt2^0
