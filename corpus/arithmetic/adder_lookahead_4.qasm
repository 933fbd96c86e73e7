// An adder of four bits with carry look-ahead, on even mixtures of all a and b: s takes the five bits of a + b. a[0], b[0], s[0] are the lowest bits.
// The listing is the table of sums: 256 states, each with 1/16.
OPENQASM 2.0;
include "qelib1.inc";
qreg a[4];
qreg b[4];
qreg s[5];
qreg p[1];
h a; h b;
// where a place makes a carry: both bits are 1
ccx a[0],b[0],s[1]; ccx a[1],b[1],s[2]; ccx a[2],b[2],s[3]; ccx a[3],b[3],s[4];
// where a place hands a carry on: one bit is 1. p: places 2 and 3 both hand on
cx a,b;
ccx b[2],b[3],p;
// the carries out of places 1 and 3 of two places each, then out of all four, then out of place 2
ccx s[1],b[1],s[2]; ccx s[3],b[3],s[4];
ccx s[2],p,s[4];
ccx s[2],b[2],s[3];
// p is cleared, the bits are added to the carries, and b comes back
ccx b[2],b[3],p;
cx b[0],s[0]; cx b[1],s[1]; cx b[2],s[2]; cx b[3],s[3];
cx a,b;
