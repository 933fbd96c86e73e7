// Shor's order finding for 7 mod 15: phase estimation of x -> 7*x mod 15 from x = 1, with three bits. The order is 4, so the phases 0, 1/4, 2/4, 3/4 come
// with 1/4 each: 000, 010, 100, 110.
OPENQASM 2.0;
include "qelib1.inc";
qreg e[3];
qreg w[4];
creg c[3];
x w[3];
h e;
// 7*x where e[2] is 1; w[0] is the highest bit
cswap e[2],w[2],w[3]; cswap e[2],w[1],w[2]; cswap e[2],w[0],w[1]; cx e[2],w;
// 7^2 = 49 = 4 mod 15 where e[1] is 1: round by two places
cswap e[1],w[0],w[2]; cswap e[1],w[1],w[3];
// 7^4 = 1 mod 15 where e[0] is 1: nothing
// the inverse Fourier transform
swap e[0],e[2];
h e[2];
cu1(-pi/2) e[2],e[1];
h e[1];
cu1(-pi/4) e[2],e[0];
cu1(-pi/2) e[1],e[0];
h e[0];
measure e -> c;
