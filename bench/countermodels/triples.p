% Any two points are on one line of three, and not all are on one line: the least plane has 7 points.
fof(line,axiom,! [X,Y] : (X = Y | ? [Z] : t(X,Y,Z))).
fof(three,axiom,! [X,Y,Z] : (t(X,Y,Z) => X != Y)).
fof(turn,axiom,! [X,Y,Z] : (t(X,Y,Z) => t(Y,Z,X))).
fof(swap,axiom,! [X,Y,Z] : (t(X,Y,Z) => t(Y,X,Z))).
fof(one_line,axiom,! [X,Y,Z,W] : ((t(X,Y,Z) & t(X,Y,W)) => Z = W)).
fof(all_on_one,conjecture,! [X,Y,Z] : (X = Y | X = Z | Y = Z | t(X,Y,Z))).
