// A quantum walk on a ring of eight places, four steps from place 0 with coin 0. A step tosses the coin by h and goes one place up or down.
// place[0] is the highest bit. On a line four steps lead to 4, 2, 0, -2, -4 with 1, 10, 2, 2, 1 sixteenths; on the ring 4 and -4 are one place.
OPENQASM 2.0;
include "qelib1.inc";
qreg place[3];
qreg coin[1];
creg c[3];
h coin;
// up where the coin is 0, down where it is 1: the bits are turned for the way down
cx coin[0],place; ccx place[2],place[1],place[0]; cx place[2],place[1]; x place[2]; cx coin[0],place;
h coin;
cx coin[0],place; ccx place[2],place[1],place[0]; cx place[2],place[1]; x place[2]; cx coin[0],place;
h coin;
cx coin[0],place; ccx place[2],place[1],place[0]; cx place[2],place[1]; x place[2]; cx coin[0],place;
h coin;
cx coin[0],place; ccx place[2],place[1],place[0]; cx place[2],place[1]; x place[2]; cx coin[0],place;
measure place -> c;
