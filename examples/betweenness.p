% Betweenness is symmetric.
include('tarski.ax').
fof(betweenness_is_symmetric,conjecture,! [A,B,C] : (bet(A,B,C) => bet(C,B,A))).
