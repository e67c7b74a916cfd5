% An order in which any two elements have one above them, and no greatest: there is no finite one.
fof(reflexive,axiom,! [X] : le(X,X)).
fof(transitive,axiom,! [X,Y,Z] : ((le(X,Y) & le(Y,Z)) => le(X,Z))).
fof(antisymmetric,axiom,! [X,Y] : ((le(X,Y) & le(Y,X)) => X = Y)).
fof(above,axiom,! [X,Y] : ? [Z] : (le(X,Z) & le(Y,Z))).
fof(no_greatest,axiom,! [X] : ? [Y] : ~ le(Y,X)).
