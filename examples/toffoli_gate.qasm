OPENQASM 2.0;
qreg q[3];
x q[0];
x q[1];
ccx q[0],q[1],q[2];
