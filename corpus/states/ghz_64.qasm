// The GHZ state of 64 qubits: all 0 and all 1, with 1/sqrt(2) each.
OPENQASM 2.0;
include "qelib1.inc";
qreg q[1];
qreg r[63];
h q;
cx q[0],r;
