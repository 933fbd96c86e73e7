// Phase estimation of t on h|0>, an even mixture of its eigenstates: 000 (no phase) and 001 (1/8 of a turn) come with 1/2 each.
OPENQASM 2.0;
include "qelib1.inc";
qreg e[3];
qreg u[1];
creg c[3];
h u;
h e;
cz e[0],u;
cs e[1],u;
ct e[2],u;
swap e[0],e[2];
h e[2];
cu1(-pi/2) e[2],e[1];
h e[1];
cu1(-pi/4) e[2],e[0];
cu1(-pi/2) e[1],e[0];
h e[0];
measure e -> c;
