// Turns by rx and ry, with and without a control.
OPENQASM 2.0;
include "qelib1.inc";
qreg q[4];
rx(pi/2) q[0];
ry(pi/2) q[1];
rx(pi) q[2];
crx(2*pi) q[2],q[3];
cry(pi) q[0],q[3];
crx(-pi/2) q[1],q[2];
