// A hidden shift of 12 bits, 101101110001.
// f is the sum of x_i*y_i and of x_i*x_j*x_k for each three pairs in turn, mod 2, with x on even and y on odd places: a bent function, whose dual has the
// products of y in their place. The first oracle is that of f shifted, the second that of the dual; the shift comes for certain.
// Each ccz is made of seven t and tdg.
OPENQASM 2.0;
include "qelib1.inc";
qreg q[12];
h q;
x q[0]; x q[2]; x q[3]; x q[5]; x q[6]; x q[7]; x q[11];
cz q[0],q[1]; cz q[2],q[3]; cz q[4],q[5]; cz q[6],q[7]; cz q[8],q[9]; cz q[10],q[11]; h q[4]; h q[4];
cx q[2],q[4]; tdg q[4]; cx q[0],q[4]; t q[4]; cx q[2],q[4]; tdg q[4]; cx q[0],q[4]; t q[4];
t q[2]; h q[4]; cx q[0],q[2]; t q[0]; tdg q[2]; cx q[0],q[2]; h q[4]; h q[10];
h q[10]; cx q[8],q[10]; tdg q[10]; cx q[6],q[10]; t q[10]; cx q[8],q[10]; tdg q[10]; cx q[6],q[10];
t q[10]; t q[8]; h q[10]; cx q[6],q[8]; t q[6]; tdg q[8]; cx q[6],q[8]; h q[10];
x q[0]; x q[2]; x q[3]; x q[5]; x q[6]; x q[7]; x q[11];
h q;
cz q[0],q[1]; cz q[2],q[3]; cz q[4],q[5]; cz q[6],q[7]; cz q[8],q[9]; cz q[10],q[11]; h q[5]; h q[5];
cx q[3],q[5]; tdg q[5]; cx q[1],q[5]; t q[5]; cx q[3],q[5]; tdg q[5]; cx q[1],q[5]; t q[5];
t q[3]; h q[5]; cx q[1],q[3]; t q[1]; tdg q[3]; cx q[1],q[3]; h q[5]; h q[11];
h q[11]; cx q[9],q[11]; tdg q[11]; cx q[7],q[11]; t q[11]; cx q[9],q[11]; tdg q[11]; cx q[7],q[11];
t q[11]; t q[9]; h q[11]; cx q[7],q[9]; t q[7]; tdg q[9]; cx q[7],q[9]; h q[11];
h q;
