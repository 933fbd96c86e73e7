// The Reed and Muller code of fifteen qubits, on which tdg on every qubit is t on the data. q[p-1] is the place p; a generator takes the places whose number has a
// given bit. The data, h|0>, stand on place 3; with the code undone and a last h they are the coin h t h, which shows 0 with probability (2+sqrt(2))/4.
// All other qubits come back to 0, so there are two states.
OPENQASM 2.0;
include "qelib1.inc";
qreg q[15];
creg c[1];
h q[2];
// the data, spread over the places 3, 5, 6, 9, 10, 12, 15
cx q[2],q[4]; cx q[2],q[5]; cx q[2],q[8]; cx q[2],q[9]; cx q[2],q[11]; cx q[2],q[14];
// the generators, from the places 1, 2, 4, 8
h q[0]; cx q[0],q[2]; cx q[0],q[4]; cx q[0],q[6]; cx q[0],q[8]; cx q[0],q[10]; cx q[0],q[12]; cx q[0],q[14];
h q[1]; cx q[1],q[2]; cx q[1],q[5]; cx q[1],q[6]; cx q[1],q[9]; cx q[1],q[10]; cx q[1],q[13]; cx q[1],q[14];
h q[3]; cx q[3],q[4]; cx q[3],q[5]; cx q[3],q[6]; cx q[3],q[11]; cx q[3],q[12]; cx q[3],q[13]; cx q[3],q[14];
h q[7]; cx q[7],q[8]; cx q[7],q[9]; cx q[7],q[10]; cx q[7],q[11]; cx q[7],q[12]; cx q[7],q[13]; cx q[7],q[14];
tdg q;
cx q[7],q[8]; cx q[7],q[9]; cx q[7],q[10]; cx q[7],q[11]; cx q[7],q[12]; cx q[7],q[13]; cx q[7],q[14]; h q[7];
cx q[3],q[4]; cx q[3],q[5]; cx q[3],q[6]; cx q[3],q[11]; cx q[3],q[12]; cx q[3],q[13]; cx q[3],q[14]; h q[3];
cx q[1],q[2]; cx q[1],q[5]; cx q[1],q[6]; cx q[1],q[9]; cx q[1],q[10]; cx q[1],q[13]; cx q[1],q[14]; h q[1];
cx q[0],q[2]; cx q[0],q[4]; cx q[0],q[6]; cx q[0],q[8]; cx q[0],q[10]; cx q[0],q[12]; cx q[0],q[14]; h q[0];
cx q[2],q[4]; cx q[2],q[5]; cx q[2],q[8]; cx q[2],q[9]; cx q[2],q[11]; cx q[2],q[14];
h q[2];
measure q[2] -> c[0];
