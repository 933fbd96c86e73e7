// Eight qubits in the opposite order by swaps of neighbours: eight rounds, even pairs and odd pairs in turn, as in a sorting network.
OPENQASM 2.0;
include "qelib1.inc";
qreg q[8];
swap q[0],q[1]; swap q[2],q[3]; swap q[4],q[5]; swap q[6],q[7];
swap q[1],q[2]; swap q[3],q[4]; swap q[5],q[6];
swap q[0],q[1]; swap q[2],q[3]; swap q[4],q[5]; swap q[6],q[7];
swap q[1],q[2]; swap q[3],q[4]; swap q[5],q[6];
swap q[0],q[1]; swap q[2],q[3]; swap q[4],q[5]; swap q[6],q[7];
swap q[1],q[2]; swap q[3],q[4]; swap q[5],q[6];
swap q[0],q[1]; swap q[2],q[3]; swap q[4],q[5]; swap q[6],q[7];
swap q[1],q[2]; swap q[3],q[4]; swap q[5],q[6];
