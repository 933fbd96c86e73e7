// x and then z, on each of three qubits.
OPENQASM 2.0;
include "qelib1.inc";
qreg q[3];
x q; z q;
