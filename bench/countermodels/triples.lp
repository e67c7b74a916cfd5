d(0..n-1).
1 { t(X,Y,Z) : d(Z) } 1 :- d(X), d(Y), X != Y.
:- t(X,X,Z).
:- t(X,Y,Z), not t(Y,Z,X).
:- t(X,Y,Z), not t(Y,X,Z).
1 { at(X,Y,Z) : d(X), d(Y), d(Z), X != Y, X != Z, Y != Z } 1.
:- at(X,Y,Z), t(X,Y,Z).
