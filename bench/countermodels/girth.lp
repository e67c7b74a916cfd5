d(0..n-1).
{ r(X,Y) : d(X), d(Y) }.
:- r(X,X).
:- r(X,Y), not r(Y,X).
2 { r(X,Y) : d(Y) } :- d(X).
:- r(X,Y), r(Y,Z), r(Z,X).
:- r(X,Y), r(Y,Z), r(Z,W), r(W,X), X != Z, Y != W.
