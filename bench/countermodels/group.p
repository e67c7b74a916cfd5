% A group whose multiplication does not commute: the least has 6 elements.
fof(product,axiom,! [X,Y] : ? [Z] : m(X,Y,Z)).
fof(one_product,axiom,! [X,Y,Z,W] : ((m(X,Y,Z) & m(X,Y,W)) => Z = W)).
fof(associative,axiom,! [X,Y,Z,U,V,W] : ((m(X,Y,U) & m(U,Z,V) & m(Y,Z,W)) => m(X,W,V))).
fof(left_unit,axiom,! [X] : m(e,X,X)).
fof(right_unit,axiom,! [X] : m(X,e,X)).
fof(inverse,axiom,! [X] : ? [Y] : m(X,Y,e)).
fof(commutes,conjecture,! [X,Y,Z] : (m(X,Y,Z) => m(Y,X,Z))).
