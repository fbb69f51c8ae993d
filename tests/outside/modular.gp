\\ The calls over residues beside PARI: reads what modular.cpp wrote. Wants NAME, the file's.
\\ Each result is held against PARI's own fast Fourier transform and, at eight places, against the polynomial evaluated there.
reversed(j, n) = fromdigits(Vecrev(digits(j + 2^n, 2))[1 .. n], 2);
TURNED = vector(12, n, vector(2^n, j, reversed(j - 1, n) + 1));
wrong = 0;
say(what, c) = { wrong++; if (wrong <= 20, print("DIFFERENCE: ", what, " of ", c[1 .. 3])) };

evaluated = 0;
sums(n, m, x, samples) =
{
  my(N = 2^n, p = Mod(1, m) * Polrev(samples), f = fft(powers(Mod(x, m), N - 1), p), j);
  for (i = 1, 8, j = random(N); evaluated++; if (subst(p, 'x, Mod(x, m)^j) != f[j + 1], say("PARI itself", [n, m, x])));
  lift(f);
}

results = 0;
transformed(c) =
{
  my(n = c[1], f = sums(n, c[2], c[3], c[4]), turned = vector(2^n, j, f[TURNED[n][j]]));
  for (way = 1, #c[5], results++; if (c[5][way] != if (way == 4, f, turned), say("transform", c)));
}

\\ the first place where a rule fails, -1 where none does
fault(m, table) =
{
  my(half = #table, x = if (half > 1, table[2], -1), p = powers(Mod(x, m), half));
  for (i = 1, half, if (table[i] != lift(p[i]), return (i - 1)));
  if (p[half + 1] == -1, -1, half);
}

tables = 0;
judged(c) =
{
  my(place = fault(c[1], c[2]));
  tables++;
  if (c[3 .. 4] != if (place < 0, [0, 0], [4, place]), say("accept", [#c[2], c[1], place]));
}

{
my(file = fileopen(NAME), line, c);
while (line = fileread(file), c = eval(line); if (#c == 5, transformed(c), judged(c)));
printf("PARI %s: %d results and %d tables compared, %d sums evaluated; %d differences\n", strjoin(version(), "."), results, tables, evaluated, wrong);
quit(wrong > 0);
}
