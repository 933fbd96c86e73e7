// z and then x, on each of three qubits: three times the factor -1.
OPENQASM 2.0;
include "qelib1.inc";
qreg q[3];
z q; x q;
