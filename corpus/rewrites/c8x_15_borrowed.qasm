// x on q[14] under eight controls by 24 Toffoli gates with six borrowed qubits, q[8] to q[13] (Barenco and others): a V of gates down to the first two controls and
// back adds the product of all controls and a rest that hangs on the borrowed ones; the shorter V without the target takes the borrowed ones back, and both come twice.
OPENQASM 2.0;
include "qelib1.inc";
qreg q[15];
ccx q[7],q[13],q[14]; ccx q[6],q[12],q[13]; ccx q[5],q[11],q[12]; ccx q[4],q[10],q[11]; ccx q[3],q[9],q[10]; ccx q[2],q[8],q[9];
ccx q[0],q[1],q[8];
ccx q[2],q[8],q[9]; ccx q[3],q[9],q[10]; ccx q[4],q[10],q[11]; ccx q[5],q[11],q[12]; ccx q[6],q[12],q[13]; ccx q[7],q[13],q[14];
ccx q[6],q[12],q[13]; ccx q[5],q[11],q[12]; ccx q[4],q[10],q[11]; ccx q[3],q[9],q[10]; ccx q[2],q[8],q[9];
ccx q[0],q[1],q[8];
ccx q[2],q[8],q[9]; ccx q[3],q[9],q[10]; ccx q[4],q[10],q[11]; ccx q[5],q[11],q[12]; ccx q[6],q[12],q[13];
