% A graph in which each vertex has two neighbours, and no triangle and no cycle of four: the least
% is the cycle of five.
fof(irreflexive,axiom,! [X] : ~ r(X,X)).
fof(symmetric,axiom,! [X,Y] : (r(X,Y) => r(Y,X))).
fof(two_neighbours,axiom,! [X] : ? [Y,Z] : (r(X,Y) & r(X,Z) & Y != Z)).
fof(short_cycle,conjecture,(? [X,Y,Z] : (r(X,Y) & r(Y,Z) & r(Z,X)))
    | ? [X,Y,Z,W] : (r(X,Y) & r(Y,Z) & r(Z,W) & r(W,X) & X != Z & Y != W)).
