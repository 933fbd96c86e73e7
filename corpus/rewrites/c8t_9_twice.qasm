// An eighth turn under eight controls, twice.
OPENQASM 2.0;
include "qelib1.inc";
qreg q[9];
cccccccct q[0],q[1],q[2],q[3],q[4],q[5],q[6],q[7],q[8];
ccccccccu1(pi/4) q[8],q[7],q[6],q[5],q[4],q[3],q[2],q[1],q[0];
