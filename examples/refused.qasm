OPENQASM 2.0;
include "qelib1.inc";
qreg q[1];
rx(1.5707963267948966) q[0];
