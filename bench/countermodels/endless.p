% An order in which each element has a greater one: no finite structure is one.
fof(irreflexive,axiom,! [X] : ~ lt(X,X)).
fof(transitive,axiom,! [X,Y,Z] : ((lt(X,Y) & lt(Y,Z)) => lt(X,Z))).
fof(greater,axiom,! [X] : ? [Y] : lt(X,Y)).
