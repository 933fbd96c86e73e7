// The gate iSWAP: the two are exchanged, with the factor i where they differ.
OPENQASM 2.0;
include "qelib1.inc";
qreg q[2];
swap q[0],q[1];
cz q[0],q[1];
s q[0]; s q[1];
