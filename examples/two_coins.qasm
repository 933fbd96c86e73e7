// Two coins, each 0 with probability cos^2(pi/8).
OPENQASM 2.0;
include "qelib1.inc";
qreg q[2];
creg c[2];
h q;
t q;
h q;
measure q -> c;
