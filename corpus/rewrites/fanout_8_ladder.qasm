// A bit is added to seven others by cx of neighbours alone: down the ladder each place takes the one above, so that the bit runs through, and before that the places
// were added up from below, so that what else runs through is taken out.
OPENQASM 2.0;
include "qelib1.inc";
qreg q[8];
cx q[6],q[7]; cx q[5],q[6]; cx q[4],q[5]; cx q[3],q[4]; cx q[2],q[3]; cx q[1],q[2];
cx q[0],q[1];
cx q[1],q[2]; cx q[2],q[3]; cx q[3],q[4]; cx q[4],q[5]; cx q[5],q[6]; cx q[6],q[7];
