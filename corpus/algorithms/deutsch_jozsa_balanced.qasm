// Deutsch and Jozsa on five bits, with f(x) = x0*x1 + x2*x3 + x4 mod 2, which is balanced: 00000 never comes.
// x4 adds to f by itself, so its bit is 1 for certain; on the other four the sign of two bent pairs is even over all sixteen values.
OPENQASM 2.0;
include "qelib1.inc";
qreg x[5];
qreg y[1];
creg c[5];
x y;
h x;
h y;
ccx x[0],x[1],y;
ccx x[2],x[3],y;
cx x[4],y;
h x;
measure x -> c;
