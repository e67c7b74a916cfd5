% Segments without length are as long as one another: not by the axioms of congruence alone.
include('tarski.ax',[cong_pseudo,cong_trans,cong_identity]).
fof(null_segments,conjecture,! [A,B] : cong(A,A,B,B)).
