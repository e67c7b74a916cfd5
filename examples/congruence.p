% Congruence is symmetric, by two of the axioms.
include('tarski.ax',[cong_pseudo,cong_trans]).
fof(congruence_is_symmetric,conjecture,! [A,B,C,D] : (cong(A,B,C,D) => cong(C,D,A,B))).
