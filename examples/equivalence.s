fof(x,axiom,(![X]:p(X))<=>(?[X]:q(X)),file(x,x)).
fof(g,conjecture,?[X]:(~p(X)|q(X)),file(x,g)).
fof(s,plain,(~p(f)|q(g))&(![X]:~q(X)|![X]:p(X)),inference(k,[status(esa)],[x])).
fof(n,negated_conjecture,![X]:(p(X)&~q(X)),inference(n,[status(cth)],[g])).
cnf(c1,plain,q(g),inference(r,[status(thm)],[s,n])).
cnf(e,plain,$false,inference(r,[status(thm)],[c1,n])).
