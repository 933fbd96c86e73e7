// Deutsch's problem, with f(x) = x + 1 mod 2: the qubit x shows 1 for certain, since the branches get different signs.
OPENQASM 2.0;
include "qelib1.inc";
qreg x[1];
qreg y[1];
creg c[1];
x y;
h x;
h y;
cx x,y;
x y;
h x;
measure x -> c;
