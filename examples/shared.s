fof(a1,axiom,![Y,Z]:(q(Z)|?[X]:r(Y,X)),file(x,a1)).
fof(a2,axiom,~q(a)|~q(b),file(x,a2)).
fof(a5,axiom,![X]:~r(a,X),file(x,a5)).
fof(s,plain,![Y,Z]:(q(Z)|r(Y,f(Y))),inference(k,[status(esa)],[a1])).
cnf(d1,plain,q(Z),inference(r,[status(thm)],[s,a5])).
cnf(d2,plain,~q(b),inference(r,[status(thm)],[d1,a2])).
cnf(e,plain,$false,inference(r,[status(thm)],[d1,d2])).
