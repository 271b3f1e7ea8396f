OPENQASM 2.0;
include "qelib1.inc";
qreg q0[1];
creg c0[1];
qreg q1[1];
creg c1[1];
qreg q2[1];
creg c2[1];
h q1[0];
cx q1[0],q2[0];
cx q0[0],q1[0];
h q0[0];
measure q0[0] -> c0[0];
measure q1[0] -> c1[0];
if(c1==1) x q2[0];
if(c0==1) z q2[0];
// out c0 c1 q2
