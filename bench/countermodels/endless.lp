d(0..n-1).
{ lt(X,Y) : d(X), d(Y) }.
:- lt(X,X).
:- lt(X,Y), lt(Y,Z), not lt(X,Z).
1 { lt(X,Y) : d(Y) } :- d(X).
