// Deutsch and Jozsa on five bits, with f(x) = 1 for all x: a constant f gives 00000 for certain.
OPENQASM 2.0;
include "qelib1.inc";
qreg x[5];
qreg y[1];
creg c[5];
x y;
h x;
h y;
x y;
h x;
measure x -> c;
