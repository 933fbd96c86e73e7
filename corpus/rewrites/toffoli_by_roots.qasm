// The Toffoli gate by controlled square roots of x, h s h: V where b is 1, V where a is 1, and the inverse of V where a + b is odd.
OPENQASM 2.0;
include "qelib1.inc";
qreg q[3];
h q[2]; cs q[1],q[2]; h q[2];
cx q[0],q[1];
h q[2]; csdg q[1],q[2]; h q[2];
cx q[0],q[1];
h q[2]; cs q[0],q[2]; h q[2];
