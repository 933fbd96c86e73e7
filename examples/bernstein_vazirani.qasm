// Finds the hidden bits 1011 of f(x) = x0 + x2 + x3 mod 2 by one call of f.
OPENQASM 2.0;
include "qelib1.inc";
qreg x[4];
qreg y[1];
creg c[4];
x y;
h x;
h y;
barrier x,y;
cx x[0],y;
cx x[2],y;
cx x[3],y;
barrier x,y;
h x;
h y;
measure x -> c;
