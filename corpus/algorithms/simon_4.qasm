// Simon's problem on four bits with the hidden mask 1011, by an f that isn't linear: first x becomes g(x) = (x1, x2 + x0, x3 + x0), which is the same
// for x and x + 1011, and then f takes the third bit of g on by the product of the other two.
// The outcomes are the eight y with y0 + y2 + y3 even, each with 1/8, whatever one to one map follows g.
OPENQASM 2.0;
include "qelib1.inc";
qreg x[4];
qreg y[3];
creg c[4];
h x;
cx x[1],y[0];
cx x[2],y[1]; cx x[0],y[1];
cx x[3],y[2]; cx x[0],y[2];
ccx y[0],y[1],y[2];
h x;
measure x -> c;
