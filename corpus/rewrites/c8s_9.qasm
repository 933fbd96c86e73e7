// A quarter turn under eight controls, with another of the nine as its target: a phase of nine bits has no target of its own.
OPENQASM 2.0;
include "qelib1.inc";
qreg q[9];
ccccccccs q[0],q[1],q[8],q[2],q[3],q[4],q[5],q[6],q[7];
