// The graph state of a ring of five: all 32 states have 1/sqrt(32), and the sign is minus where an odd number of neighbours are both 1.
OPENQASM 2.0;
include "qelib1.inc";
qreg q[5];
h q;
cz q[0],q[1]; cz q[1],q[2]; cz q[2],q[3]; cz q[3],q[4]; cz q[4],q[0];
