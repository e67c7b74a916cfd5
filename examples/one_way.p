% Betweenness is symmetric: not without the axiom that lays off segments.
include('tarski.ax',[cong_pseudo,cong_trans,cong_identity,five_segment,bet_identity,pasch]).
fof(betweenness_is_symmetric,conjecture,! [A,B,C] : (bet(A,B,C) => bet(C,B,A))).
