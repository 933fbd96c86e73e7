// Margolus' gate: a Toffoli gate by four quarters of a turn about y and three cx, up to a sign. Here each quarter is sdg h t h s, or its inverse.
OPENQASM 2.0;
include "qelib1.inc";
qreg q[3];
sdg q[2]; h q[2]; t q[2]; h q[2]; s q[2];
cx q[1],q[2];
sdg q[2]; h q[2]; t q[2]; h q[2]; s q[2];
cx q[0],q[2];
sdg q[2]; h q[2]; tdg q[2]; h q[2]; s q[2];
cx q[1],q[2];
sdg q[2]; h q[2]; tdg q[2]; h q[2]; s q[2];
