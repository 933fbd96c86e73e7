// A bit is added to seven others, with h pushed through: between h on all qubits each cx goes the other way.
OPENQASM 2.0;
include "qelib1.inc";
qreg q[1];
qreg r[7];
h q; h r;
cx r,q[0];
h q; h r;
