// The W state of four qubits, which is exact: one 1 at each place, with amplitude 1/2. A 1 is halved between two places by ch and cx, twice.
OPENQASM 2.0;
include "qelib1.inc";
qreg q[4];
x q[0];
ch q[0],q[2]; cx q[2],q[0];
ch q[0],q[1]; cx q[1],q[0];
ch q[2],q[3]; cx q[3],q[2];
