% A loop whose multiplication is not associative: the least has 5 elements.
fof(product,axiom,! [X,Y] : ? [Z] : m(X,Y,Z)).
fof(one_product,axiom,! [X,Y,Z,W] : ((m(X,Y,Z) & m(X,Y,W)) => Z = W)).
fof(right_factor,axiom,! [X,Z] : ? [Y] : m(X,Y,Z)).
fof(one_right,axiom,! [X,Y,Z,W] : ((m(X,Y,Z) & m(X,W,Z)) => Y = W)).
fof(left_factor,axiom,! [Y,Z] : ? [X] : m(X,Y,Z)).
fof(one_left,axiom,! [X,Y,Z,W] : ((m(X,Y,Z) & m(W,Y,Z)) => X = W)).
fof(left_unit,axiom,! [X] : m(e,X,X)).
fof(right_unit,axiom,! [X] : m(X,e,X)).
fof(associative,conjecture,! [X,Y,Z,U,V,W] : ((m(X,Y,U) & m(U,Z,V) & m(Y,Z,W)) => m(X,W,V))).
