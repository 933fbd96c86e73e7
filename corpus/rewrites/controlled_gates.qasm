// Controlled gates: cy, ch, cs and csdg on two qubits each.
OPENQASM 2.0;
include "qelib1.inc";
qreg q[8];
cy q[0],q[1];
ch q[2],q[3];
cs q[4],q[5];
csdg q[6],q[7];
