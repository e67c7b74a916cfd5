% One axiom, and a conjecture that it gives.
fof(everybody_says_so,axiom,barks(rex)).
fof(rex_barks,conjecture,barks(rex)).
