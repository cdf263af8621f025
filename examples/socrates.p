% All men are mortal, and Socrates is a man.
fof(man,axiom,![X]:(man(X)=>mortal(X))).
fof(soc,axiom,man(socrates)).
fof(goal,conjecture,?[X]:mortal(X)).
