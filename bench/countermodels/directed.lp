d(0..n-1).
{ le(X,Y) : d(X), d(Y) }.
:- d(X), not le(X,X).
:- le(X,Y), le(Y,Z), not le(X,Z).
:- le(X,Y), le(Y,X), X != Y.
up(X,Y) :- le(X,Z), le(Y,Z).
:- d(X), d(Y), not up(X,Y).
:- d(X), le(Y,X) : d(Y).
