\\ What the program `compare` must print, worked out by PARI/GP apart from our code and our formulas.
\\
\\     gp -fq -s 1G tools/compare.gp > crates/compare/stdout
\\
\\ makes it anew (PARI/GP 2.15.2, Debian's pari-gp 2.15.2-1). The encoding matrices are made from their
\\ eigenspaces, and what is lost is found by matsolve on the parities' equations. All symbols are
\\ printed by their numbers.
\\
\\ For each field and each m from 1 to 6 for which the field has 2m marks:
\\ - a file of 3m columns is drawn, box after box, and its parity columns are printed,
\\   as boxes 3m + 1 and 3m + 2;
\\ - two more columns are drawn, and take the place of the parity columns: the cabinet then holds
\\   columns that no encoder would leave there;
\\ - for each choice of boxes out, the columns that they must have, given all others, are printed, box
\\   after box. Where a single box is out, the first parity alone decides, and for box 3m + 2 the second.
\\
\\ Numbers are drawn so: x begins as m for each field and each m, and is replaced by
\\ (1103515245·x + 12345) modulo 2^31 before each. Where x / 2^27, rounded down, is 0, the number is the
\\ field's last, where it is 1, it is zero, and else it is x / 2^8, rounded down, modulo the field's size.

default(breakloop, 0);

\\ A field: its name, its size, a symbol by its number, a symbol's number, and the marks by their numbers.
prime_field(name, p, marks) = [name, p, n -> Mod(n, p), s -> lift(s), marks];

\\ Symbols as polynomials over two elements, a number's binary digits being the coefficients.
binary_field(name, modulus, marks) =
{
  my(a = ffgen(modulus * Mod(1, 2), 'a));
  [name, 2 ^ poldegree(modulus), n -> 0 * a + subst(Pol(binary(n)), 'x, a), s -> subst(s.pol, 'a, 2), marks];
}

name(F) = F[1];
size(F) = F[2];
symbol(F, n) = F[3](n);
number(F, s) = F[4](s);
mark(F, j) = symbol(F, F[5][j]);
most(F) = min(6, #F[5] \ 2);

draw(F) =
{
  x = (1103515245 * x + 12345) % 2 ^ 31;
  my(high = x \ 2 ^ 27);
  symbol(F, if(high == 0, size(F) - 1, high == 1, 0, (x \ 2 ^ 8) % size(F)));
}
draw_column(F, m) = vector(2 ^ m, a, draw(F))~;

zeros(F, m) = vector(2 ^ m, a, symbol(F, 0))~;
identity(F, m) = matrix(2 ^ m, 2 ^ m, a, b, symbol(F, a == b));

\\ The rows that are left eigenvectors, pair by pair, and beside each its eigenvalue: of the functionals
\\ lower, upper and sum, counted from 0 and cyclically, the one in place u + 1 has p and the one in
\\ place u + 2 has q.
eigenvectors(F, m, u, i) =
{
  my(weight = 2 ^ (m - i), rows = List(), values = List(), unit = identity(F, m));
  for(a = 0, 2 ^ m - 1, if(bittest(a, m - i), next);
    my(lower = unit[a + 1, ], upper = unit[a + weight + 1, ], functionals = [lower, upper, lower + upper]);
    listput(rows, functionals[(u + 1) % 3 + 1]); listput(values, mark(F, 2 * i - 1));
    listput(rows, functionals[(u + 2) % 3 + 1]); listput(values, mark(F, 2 * i)));
  [matconcat(Vec(rows)~), matdiagonal(Vec(values))];
}
\\ V·A = D·V for the matrix V of these rows and their eigenvalues D.
encoding(F, m, u, i) = my([V, D] = eigenvectors(F, m, u, i)); matsolve(V, D * V);

\\ What each box, by its number, puts into the equations
\\ sum of C_b - first = 0 and sum of A_b C_b - second = 0, the one above the other.
shares(F, m) =
{
  my(one = identity(F, m), none = 0 * one);
  concat([vector(3 * m, b, matconcat([one; encoding(F, m, (b - 1) \ m, (b - 1) % m + 1)])),
    [matconcat([-one; none]), matconcat([none; -one])]]);
}

\\ All choices of one or two boxes for a small m; from m = 3 on kinds and directions of each sort.
every_choice(n) =
{
  my(choices = List());
  for(b = 1, n, listput(choices, [b]); for(c = 1, b - 1, listput(choices, [b, c])));
  Vec(choices);
}
some_choices(m) =
{
  my(lower = i -> i, upper = i -> m + i, sums = i -> 2 * m + i, first = 3 * m + 1, second = 3 * m + 2);
  [[lower(3)], [second],
    [lower(1), upper(1)], [sums(2), upper(2)], [lower(m), sums(m)],
    [lower(1), lower(m)], [upper(m), upper(2)], [sums(2), sums(3)],
    [lower(1), upper(2)], [upper(2), lower(m)], [upper(1), sums(m)],
    [sums(2), upper(3)], [lower(2), sums(m)], [lower(m), sums(1)],
    [first, sums(m)], [upper(2), second], [second, first]];
}
choices(m) = if(m <= 2, every_choice(3 * m + 2), some_choices(m));

\\ The columns of the boxes out.
decoded(F, m, share, columns, out) =
{
  my(rows = 2 ^ m, known = setminus([1 .. 3 * m + 2], Set(out)), left, wanted, equations);
  left = -sum(k = 1, #known, share[known[k]] * columns[known[k]], concat(zeros(F, m), zeros(F, m)));
  wanted = matconcat([share[b] | b <- out]);
  equations = if(#out == 2, [1 .. 2 * rows], out == [3 * m + 2], [rows + 1 .. 2 * rows], [1 .. rows]);
  left = matsolve(vecextract(wanted, equations, [1 .. rows * #out]), vecextract(left, equations));
  vector(#out, k, left[(k - 1) * rows + 1 .. k * rows]);
}

line(F, b, column) = print("box ", b, ":", concat([Str(" ", number(F, s)) | s <- column]));

compare(F, m) =
{
  my(share, columns, parities);
  print(name(F), ", m = ", m);
  x = m;
  share = shares(F, m);
  columns = vector(3 * m, b, draw_column(F, m));
  parities = sum(b = 1, 3 * m, share[b] * columns[b], concat(zeros(F, m), zeros(F, m)));
  line(F, 3 * m + 1, parities[1 .. 2 ^ m]);
  line(F, 3 * m + 2, parities[2 ^ m + 1 .. 2 * 2 ^ m]);
  columns = concat(columns, vector(2, b, draw_column(F, m)));
  foreach(choices(m), out,
    my(found = decoded(F, m, share, columns, out));
    for(k = 1, #out, print1("out", concat([Str(" ", b) | b <- out]), ", "); line(F, out[k], found[k])));
}

{
FIELDS = [prime_field("five", 5, [1, 4, 2, 3]), binary_field("four", 'x^2 + 'x + 1, [3, 2, 1]),
  binary_field("bytes", 'x^8 + 'x^4 + 'x^3 + 'x + 1, [1 .. 255]), prime_field("words", 65537, [1 .. 65536])];
}

foreach(FIELDS, F, for(m = 1, most(F), compare(F, m)));
quit;
