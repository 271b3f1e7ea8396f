OPENQASM 2.0;
include "qelib1.inc";
qreg q0[1];
creg c0[1];
qreg q1[1];
creg c1[1];
qreg q2[1];
creg c2[1];
qreg q3[1];
creg c3[1];
ccx q0[0],q1[0],q3[0];
cx q0[0],q1[0];
ccx q1[0],q2[0],q3[0];
cx q1[0],q2[0];
cx q0[0],q1[0];
// out q0 q1 q2 q3
