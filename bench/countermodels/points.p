% Tarski's seven statements, with two points that differ: no structure of few points is one.
fof(cong_pseudo,axiom,! [A,B] : cong(A,B,B,A)).
fof(cong_trans,axiom,! [A,B,C,D,E,F] :
    ((cong(A,B,C,D) & cong(A,B,E,F)) => cong(C,D,E,F))).
fof(cong_identity,axiom,! [A,B,C] : (cong(A,B,C,C) => A = B)).
fof(segment,axiom,! [A,B,C,D] : ? [E] : (bet(A,B,E) & cong(B,E,C,D))).
fof(five_segment,axiom,! [A,B,C,D,A1,B1,C1,D1] :
    ((A != B & bet(A,B,C) & bet(A1,B1,C1) & cong(A,B,A1,B1) & cong(B,C,B1,C1)
      & cong(A,D,A1,D1) & cong(B,D,B1,D1)) => cong(C,D,C1,D1))).
fof(bet_identity,axiom,! [A,B] : (bet(A,B,A) => A = B)).
fof(pasch,axiom,! [A,B,C,P,Q] : ((bet(A,P,C) & bet(B,Q,C))
    => ? [X] : (bet(P,X,B) & bet(Q,X,A)))).
fof(one_point,conjecture,! [A,B] : A = B).
