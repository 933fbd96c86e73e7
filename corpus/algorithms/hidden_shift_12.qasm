// A hidden shift of 12 bits, 101101110001.
// f is the sum of x_i*y_i and of x_i*x_j*x_k for each three pairs in turn, mod 2, with x on even and y on odd places: a bent function, whose dual has the
// products of y in their place. The first oracle is that of f shifted, the second that of the dual; the shift comes for certain.
OPENQASM 2.0;
include "qelib1.inc";
qreg q[12];
h q;
x q[0]; x q[2]; x q[3]; x q[5]; x q[6]; x q[7]; x q[11];
cz q[0],q[1]; cz q[2],q[3]; cz q[4],q[5]; cz q[6],q[7]; cz q[8],q[9]; cz q[10],q[11]; ccz q[0],q[2],q[4]; ccz q[6],q[8],q[10];
x q[0]; x q[2]; x q[3]; x q[5]; x q[6]; x q[7]; x q[11];
h q;
cz q[0],q[1]; cz q[2],q[3]; cz q[4],q[5]; cz q[6],q[7]; cz q[8],q[9]; cz q[10],q[11]; ccz q[1],q[3],q[5]; ccz q[7],q[9],q[11];
h q;
