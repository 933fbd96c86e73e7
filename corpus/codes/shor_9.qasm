// Shor's code of nine qubits with y on q[4] as its error, both a bit flip and a phase flip. Decoding corrects by majorities, and then the
// preparation h t h is undone, so q[0] shows 0 for certain.
OPENQASM 2.0;
include "qelib1.inc";
qreg q[9];
creg c[1];
h q[0]; t q[0]; h q[0];
cx q[0],q[3]; cx q[0],q[6];
h q[0]; h q[3]; h q[6];
cx q[0],q[1]; cx q[0],q[2]; cx q[3],q[4]; cx q[3],q[5]; cx q[6],q[7]; cx q[6],q[8];
y q[4];
// each three are decoded, and the majority corrects a bit flip
cx q[0],q[1]; cx q[0],q[2]; ccx q[1],q[2],q[0];
cx q[3],q[4]; cx q[3],q[5]; ccx q[4],q[5],q[3];
cx q[6],q[7]; cx q[6],q[8]; ccx q[7],q[8],q[6];
// the signs of the three are decoded, and the majority corrects a phase flip
h q[0]; h q[3]; h q[6];
cx q[0],q[3]; cx q[0],q[6]; ccx q[3],q[6],q[0];
h q[0]; tdg q[0]; h q[0];
measure q[0] -> c[0];
