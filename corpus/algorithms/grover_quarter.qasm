// Grover's search where a quarter of all entries is marked, those with x0 = 1 and x3 = 0: one step finds one of them for certain.
// The angle is pi/6, and three times that is a right angle; so the four marked ones come with 1/4 each.
OPENQASM 2.0;
include "qelib1.inc";
qreg x[4];
creg c[4];
h x;
x x[3]; cz x[0],x[3]; x x[3];
h x; x x; cccz x[0],x[1],x[2],x[3]; x x; h x;
measure x -> c;
