// 120 gates drawn from h t tdg s x z cx cz ccx swap, on 6 qubits (seed 6 of the generator).
OPENQASM 2.0;
include "qelib1.inc";
qreg q[6];
cx q[2],q[3]; cx q[2],q[5]; s q[0]; t q[3]; tdg q[4]; cx q[4],q[1]; tdg q[1]; s q[3]; h q[1]; t q[3];
t q[1]; t q[3]; cx q[1],q[0]; s q[1]; cz q[2],q[4]; h q[3]; z q[4]; cz q[0],q[1]; z q[5]; h q[4];
h q[0]; h q[2]; s q[5]; s q[4]; cx q[1],q[5]; cx q[2],q[0]; tdg q[3]; ccx q[4],q[1],q[2]; cx q[0],q[3]; tdg q[2];
t q[0]; cx q[3],q[4]; cx q[3],q[1]; h q[3]; cx q[2],q[3]; h q[1]; cz q[1],q[5]; h q[2]; t q[3]; h q[1];
t q[3]; t q[0]; s q[5]; cx q[1],q[4]; tdg q[1]; swap q[1],q[5]; t q[1]; ccx q[0],q[5],q[4]; s q[0]; cx q[0],q[3];
x q[0]; cx q[4],q[1]; tdg q[5]; x q[5]; h q[5]; s q[1]; cx q[5],q[1]; x q[5]; cx q[5],q[2]; swap q[5],q[4];
swap q[1],q[5]; cx q[5],q[4]; t q[3]; cz q[0],q[4]; tdg q[0]; z q[2]; cx q[0],q[4]; z q[0]; ccx q[4],q[0],q[2]; cz q[2],q[3];
cx q[5],q[2]; x q[0]; cz q[3],q[5]; x q[3]; cx q[1],q[0]; h q[3]; cx q[5],q[0]; swap q[1],q[5]; s q[0]; h q[5];
swap q[1],q[3]; cz q[1],q[4]; tdg q[1]; cz q[5],q[4]; t q[5]; t q[4]; tdg q[1]; cz q[4],q[2]; tdg q[4]; s q[5];
swap q[3],q[5]; cx q[4],q[3]; h q[0]; tdg q[1]; tdg q[0]; h q[4]; tdg q[5]; x q[3]; cx q[4],q[1]; h q[2];
x q[3]; x q[2]; ccx q[4],q[0],q[5]; t q[4]; t q[5]; z q[3]; h q[4]; s q[5]; z q[5]; h q[4];
cx q[0],q[1]; z q[2]; s q[4]; z q[5]; t q[5]; tdg q[3]; cx q[1],q[5]; cx q[4],q[5]; t q[5]; x q[3];
