// Deutsch's problem, with f(0) = f(1) = 1: the qubit x shows 0 for certain, since both branches get the same sign.
OPENQASM 2.0;
include "qelib1.inc";
qreg x[1];
qreg y[1];
creg c[1];
x y;
h x;
h y;
x y;
h x;
measure x -> c;
