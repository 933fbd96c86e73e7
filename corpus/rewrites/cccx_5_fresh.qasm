// x under three controls by three Toffoli gates and a fresh qubit, q[3], which is computed and uncomputed. Where q[3] isn't 0 it is another gate.
OPENQASM 2.0;
include "qelib1.inc";
qreg q[5];
ccx q[0],q[1],q[3];
ccx q[3],q[2],q[4];
ccx q[0],q[1],q[3];
