d(0..n-1).
1 { m(X,Y,Z) : d(Z) } 1 :- d(X), d(Y).
:- m(X,Y,U), m(U,Z,V), m(Y,Z,W), not m(X,W,V).
1 { e(X) : d(X) } 1.
:- e(E), d(X), not m(E,X,X).
:- e(E), d(X), not m(X,E,X).
:- e(E), d(X), not m(X,Y,E) : d(Y).
1 { a(X) : d(X) } 1.
1 { b(X) : d(X) } 1.
:- a(A), b(B), m(A,B,C), m(B,A,C).
