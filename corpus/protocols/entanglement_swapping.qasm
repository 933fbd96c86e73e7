// Two Bell pairs, q[0] with q[1] and q[2] with q[3]. The middle two are taken to the Bell basis, and their bits correct q[3].
// So q[0] and q[3], which never met, end as a Bell pair: 00 and 11, with 1/2 each.
OPENQASM 2.0;
include "qelib1.inc";
qreg q[4];
creg c[2];
h q[0];
cx q[0],q[1];
h q[2];
cx q[2],q[3];
cx q[1],q[2];
h q[1];
cx q[2],q[3];
cz q[1],q[3];
measure q[0] -> c[0];
measure q[3] -> c[1];
