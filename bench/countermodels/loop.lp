d(0..n-1).
1 { m(X,Y,Z) : d(Z) } 1 :- d(X), d(Y).
1 { m(X,Y,Z) : d(Y) } 1 :- d(X), d(Z).
1 { m(X,Y,Z) : d(X) } 1 :- d(Y), d(Z).
1 { e(X) : d(X) } 1.
:- e(E), d(X), not m(E,X,X).
:- e(E), d(X), not m(X,E,X).
1 { a(X) : d(X) } 1.
1 { b(X) : d(X) } 1.
1 { c(X) : d(X) } 1.
:- a(A), b(B), c(C), m(A,B,U), m(U,C,V), m(B,C,W), m(A,W,V).
