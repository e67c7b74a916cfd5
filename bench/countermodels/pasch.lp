d(0..n-1).
{ bet(X,Y,Z) : d(X), d(Y), d(Z) }.
{ cong(X,Y,Z,W) : d(X), d(Y), d(Z), d(W) }.
:- d(A), d(B), not cong(A,B,B,A).
:- cong(A,B,C,D), cong(A,B,E,F), not cong(C,D,E,F).
:- cong(A,B,C,C), A != B.
1 { laid(A,B,C,D,E) : d(E) } :- d(A), d(B), d(C), d(D).
:- laid(A,B,C,D,E), not bet(A,B,E).
:- laid(A,B,C,D,E), not cong(B,E,C,D).
:- A != B, bet(A,B,C), bet(A1,B1,C1), cong(A,B,A1,B1), cong(B,C,B1,C1), cong(A,D,A1,D1),
    cong(B,D,B1,D1), not cong(C,D,C1,D1).
:- bet(A,B,A), A != B.
1 { at(A,B,C) : d(A), d(B), d(C) } 1.
:- at(A,B,C), not bet(A,B,C).
:- at(A,B,C), bet(C,B,A).
