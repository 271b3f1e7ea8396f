OPENQASM 2.0;
include "qelib1.inc";
qreg q0[1];
creg c0[1];
qreg q1[1];
creg c1[1];
s q0[0];
x q0[0];
z q0[0];
s q0[0];
s q1[0];
x q1[0];
z q1[0];
s q1[0];
// out q0 q1
