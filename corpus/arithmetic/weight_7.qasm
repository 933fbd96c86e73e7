// How many of seven bits are 1, on even mixtures of all of them: w takes the number, w[0] its highest bit. Each bit that is 1 increments w.
// 0 to 7 ones come with 1, 7, 21, 35, 35, 21, 7, 1 of 128 (Pascal's triangle).
OPENQASM 2.0;
include "qelib1.inc";
qreg x[7];
qreg w[3];
creg c[3];
h x;
cccx x[0],w[2],w[1],w[0]; ccx x[0],w[2],w[1]; cx x[0],w[2];
cccx x[1],w[2],w[1],w[0]; ccx x[1],w[2],w[1]; cx x[1],w[2];
cccx x[2],w[2],w[1],w[0]; ccx x[2],w[2],w[1]; cx x[2],w[2];
cccx x[3],w[2],w[1],w[0]; ccx x[3],w[2],w[1]; cx x[3],w[2];
cccx x[4],w[2],w[1],w[0]; ccx x[4],w[2],w[1]; cx x[4],w[2];
cccx x[5],w[2],w[1],w[0]; ccx x[5],w[2],w[1]; cx x[5],w[2];
cccx x[6],w[2],w[1],w[0]; ccx x[6],w[2],w[1]; cx x[6],w[2];
measure w -> c;
