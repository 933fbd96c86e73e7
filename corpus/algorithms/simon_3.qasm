// Simon's problem on three bits with the hidden mask 110: f(x) = f(x + 110) is two to one, f(x) = (x0 + x1, x2).
// The outcomes are the y with y0 + y1 even, each with 1/4: 000, 001, 110, 111.
OPENQASM 2.0;
include "qelib1.inc";
qreg x[3];
qreg y[2];
creg c[3];
h x;
cx x[0],y[0];
cx x[1],y[0];
cx x[2],y[1];
h x;
measure x -> c;
