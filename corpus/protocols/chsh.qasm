// The CHSH game: referee's bits x and y are even, and the players answer a and b from a Bell pair; they win where a + b = x*y mod 2.
// Their best answers win with probability cos^2(pi/8) = (2+sqrt(2))/4 (Tsirelson); without the pair 3/4 is best. lost shows 0 where they win.
OPENQASM 2.0;
include "qelib1.inc";
qreg x[1];
qreg y[1];
qreg a[1];
qreg b[1];
qreg lost[1];
creg c[1];
h x;
h y;
h a;
cx a,b;
// a measures Z for x = 0, and X for x = 1
ch x,a;
// b measures (Z + X)/sqrt(2) for y = 0, which is ry(-pi/4) before Z, up to a phase; and (Z - X)/sqrt(2) for y = 1, by ry(pi/2) more
sdg b; h b; tdg b; h b; s b;
cry(pi/2) y,b;
cx a,lost;
cx b,lost;
ccx x,y,lost;
measure lost -> c;
