// b becomes a + b mod 8, with a[0] and b[0] the highest bits: each bit of a that is 1 increments b from its own place on.
OPENQASM 2.0;
include "qelib1.inc";
qreg a[3];
qreg b[3];
cccx a[2],b[2],b[1],b[0]; ccx a[2],b[2],b[1]; cx a[2],b[2];
ccx a[1],b[1],b[0]; cx a[1],b[1];
cx a[0],b[0];
