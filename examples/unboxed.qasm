OPENQASM 2.0;
include "qelib1.inc";
qreg q0[1];
creg c0[1];
qreg q1[1];
creg c1[1];
h q0[0];
cx q0[0],q1[0];
measure q0[0] -> c0[0];
if(c0==1) x q1[0];
// out c0 q1
