// Bernstein and Vazirani with the sixteen hidden bits 1100101011110001: one call of f(x) = s*x mod 2 shows them for certain.
OPENQASM 2.0;
include "qelib1.inc";
qreg x[16];
qreg y[1];
creg c[16];
x y;
h x;
h y;
cx x[0],y; cx x[1],y;
cx x[4],y; cx x[6],y;
cx x[8],y; cx x[9],y; cx x[10],y; cx x[11],y;
cx x[15],y;
h x;
measure x -> c;
