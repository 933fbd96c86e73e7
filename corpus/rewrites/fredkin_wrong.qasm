// The Fredkin gate by three gates, with the last cx the wrong way round.
OPENQASM 2.0;
include "qelib1.inc";
qreg q[3];
cx q[2],q[1];
ccx q[0],q[1],q[2];
cx q[1],q[2];
