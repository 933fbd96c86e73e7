// Grover's reflection about the even state of three qubits: h x ccz x h.
OPENQASM 2.0;
include "qelib1.inc";
qreg q[3];
h q; x q;
ccz q[0],q[1],q[2];
x q; h q;
