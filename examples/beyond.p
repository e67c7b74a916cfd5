include('tarski.ax').
fof(beyond,conjecture,! [A,B] : (A = B | ? [C] : (bet(A,B,C) & B != C))).
