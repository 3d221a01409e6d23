\\ The generators of document 01, "The code", computed by PARI/GP: the least common multiple of the minimal polynomials of a, a^2, .., a^(2t).
\\ One line for each row: m, t and the number whose bit p is the coefficient of x^p.
generator(a, t) = {
  my(g = 1);
  for (j = 1, 2 * t, g = lcm(g, minpoly(a^j)));
  g
}
as_number(g) = subst(lift(g), variable(g), 2);
rows(m, modulus) = {
  my(a = ffgen(modulus * Mod(1, 2), 'a));
  forstep (t = 2, 62, 2, print(m, " ", t, " ", as_number(generator(a, t))))
}
rows(13, x^13 + x^4 + x^3 + x + 1);
rows(14, x^14 + x^5 + x^3 + x + 1);
