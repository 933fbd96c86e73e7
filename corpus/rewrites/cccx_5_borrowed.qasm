// x under three controls by four Toffoli gates and a borrowed qubit, q[3], which may hold anything and comes back: its own part is added to the target twice
// (Barenco and others).
OPENQASM 2.0;
include "qelib1.inc";
qreg q[5];
ccx q[0],q[1],q[3];
ccx q[3],q[2],q[4];
ccx q[0],q[1],q[3];
ccx q[3],q[2],q[4];
