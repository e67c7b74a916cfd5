model 1.
size 2.
fact cong(0,0,0,0).
fact cong(0,1,0,1).
fact cong(0,1,1,0).
fact cong(1,0,0,1).
fact cong(1,0,1,0).
fact cong(1,1,1,1).
