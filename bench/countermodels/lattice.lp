d(0..n-1).
{ le(X,Y) : d(X), d(Y) }.
:- d(X), not le(X,X).
:- le(X,Y), le(Y,Z), not le(X,Z).
:- le(X,Y), le(Y,X), X != Y.
1 { meet(X,Y,Z) : d(Z) } :- d(X), d(Y).
:- meet(X,Y,Z), not le(Z,X).
:- meet(X,Y,Z), not le(Z,Y).
:- meet(X,Y,Z), le(W,X), le(W,Y), not le(W,Z).
1 { join(X,Y,Z) : d(Z) } :- d(X), d(Y).
:- join(X,Y,Z), not le(X,Z).
:- join(X,Y,Z), not le(Y,Z).
:- join(X,Y,Z), le(X,W), le(Y,W), not le(Z,W).
1 { at(X,Y,Z) : d(X), d(Y), d(Z) } 1.
fails :- at(X,Y,Z), join(Y,Z,U), meet(X,U,T), meet(X,Y,V), meet(X,Z,W), not join(V,W,T).
:- not fails.
