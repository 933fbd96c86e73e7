// Teleportation of h t h|0> from q[0] to q[2]. The sender's two measurements are put off: their corrections are controlled gates.
// The receiver then undoes h t h, so q[2] shows 0 for certain; the sender's two bits stay even.
OPENQASM 2.0;
include "qelib1.inc";
qreg q[3];
creg c[1];
h q[0]; t q[0]; h q[0];
// a Bell pair between q[1] and q[2]
h q[1];
cx q[1],q[2];
// the sender's change of basis
cx q[0],q[1];
h q[0];
// the receiver's corrections
cx q[1],q[2];
cz q[0],q[2];
// the preparation, undone
h q[2]; tdg q[2]; h q[2];
measure q[2] -> c[0];
