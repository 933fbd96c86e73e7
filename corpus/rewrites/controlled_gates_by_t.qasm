// The same by cx and gates of one qubit: y is s x sdg; h is ry(pi/4) z ry(-pi/4), and ry(pi/4) is sdg h t h s up to a phase; the product of two bits is half of
// a + b - (a+b mod 2), so cs is three t and tdg.
OPENQASM 2.0;
include "qelib1.inc";
qreg q[8];
sdg q[1]; cx q[0],q[1]; s q[1];
s q[3]; h q[3]; t q[3]; cx q[2],q[3]; tdg q[3]; h q[3]; sdg q[3];
t q[4]; t q[5]; cx q[4],q[5]; tdg q[5]; cx q[4],q[5];
tdg q[6]; tdg q[7]; cx q[6],q[7]; t q[7]; cx q[6],q[7];
