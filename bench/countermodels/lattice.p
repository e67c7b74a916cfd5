% A lattice, as an order, that is not distributive: the least has 5 elements.
fof(reflexive,axiom,! [X] : le(X,X)).
fof(transitive,axiom,! [X,Y,Z] : ((le(X,Y) & le(Y,Z)) => le(X,Z))).
fof(antisymmetric,axiom,! [X,Y] : ((le(X,Y) & le(Y,X)) => X = Y)).
fof(meet,axiom,! [X,Y] : ? [Z] : meet(X,Y,Z)).
fof(meet_below,axiom,! [X,Y,Z] : (meet(X,Y,Z) => (le(Z,X) & le(Z,Y)))).
fof(meet_greatest,axiom,! [X,Y,Z,W] : ((meet(X,Y,Z) & le(W,X) & le(W,Y)) => le(W,Z))).
fof(join,axiom,! [X,Y] : ? [Z] : join(X,Y,Z)).
fof(join_above,axiom,! [X,Y,Z] : (join(X,Y,Z) => (le(X,Z) & le(Y,Z)))).
fof(join_least,axiom,! [X,Y,Z,W] : ((join(X,Y,Z) & le(X,W) & le(Y,W)) => le(Z,W))).
fof(distributive,conjecture,! [X,Y,Z,U,V,W,T] : ((join(Y,Z,U) & meet(X,U,T) & meet(X,Y,V)
    & meet(X,Z,W)) => join(V,W,T))).
