// The coin h t h of q[0] is moved to q[2], and q[2] alone is measured. The two measurements of the sender are left out, and their
// corrections are controlled gates.
OPENQASM 2.0;
include "qelib1.inc";
qreg q[3];
creg c[1];
h q[0];
t q[0];
h q[0];
h q[1];
cx q[1],q[2];
cx q[0],q[1];
h q[0];
cx q[1],q[2];
cz q[0],q[2];
measure q[2] -> c[0];
