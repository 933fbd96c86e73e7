// Eight qubits in the opposite order.
OPENQASM 2.0;
include "qelib1.inc";
qreg q[8];
swap q[0],q[7]; swap q[1],q[6]; swap q[2],q[5]; swap q[3],q[4];
