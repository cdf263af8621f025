fof(a1,axiom,![Y]:?[X]:r(Y,X),file(x,a1)).
fof(g,conjecture,?[X,Y,Z]:((r(a,X)&r(X,Y))&r(Y,Z)),file(x,g)).
fof(s,plain,![Y]:r(Y,f(Y)),inference(k,[status(esa)],[a1])).
fof(n,negated_conjecture,~?[X,Y,Z]:((r(a,X)&r(X,Y))&r(Y,Z)),inference(n,[status(cth)],[g])).
cnf(c1,plain,~r(a,X)|~r(X,Y)|~r(Y,Z),inference(c,[status(thm)],[n])).
cnf(c2,plain,~r(f(a),Y)|~r(Y,Z),inference(r,[status(thm)],[c1,s])).
cnf(c3,plain,~r(f(f(a)),Z),inference(r,[status(thm)],[c2,s])).
cnf(e,plain,$false,inference(r,[status(thm)],[c3,s])).
