\\ Finds moduli below 2^31 that have a root for N = 2, 4, .. 4,096, with PARI alone. Prints a line "n m x" for each: N = 2^n, x^(N/2) = -1.
\\ Wants SEED.
setrand(SEED);
TOP = 2^31 - 1;

\\ whether m has such a root: N divides p - 1 for each prime p of m
has(m, N) = { my(f = factor(m)[, 1]); for (i = 1, #f, if ((f[i] - 1) % N, return (0))); 1 };

\\ a random one: a random odd power of a generator's for each prime power of m, put together by the Chinese remainder theorem
root(m, N) =
{
  my(f = factor(m), x = Mod(0, 1), q);
  for (i = 1, #f~, q = f[i, 1]^f[i, 2]; x = chinese(x, znprimroot(q)^(eulerphi(q) / N * (2 * random(N) + 1))));
  lift(x);
}

\\ a random prime p = 1 modulo N, at most limit
prime1(N, limit) = { my(p); until (isprime(p), p = N * (1 + random((limit - 1) \ N)) + 1); p };

top(N) = { my(p = TOP - (TOP - 1) % N); while (!isprime(p), p -= N); p };
product(N) = { my(p = prime1(N, 46340)); p * prime1(N, TOP \ p) };
power(N) = { my(p = prime1(N, 46340)); p^(2 + random(logint(TOP, p) - 1)) };

\\ random primes as long as there is room
many(N) = { my(m = 1, p); while (TOP \ m > 16 * N, p = prime1(N, min(TOP \ m, 32 * N)); m *= p); m };

odd(N) = { my(m); until (has(m, N), m = 2 * random(2^30 - 1) + 3); m };

say(n, m, x) = print(n, " ", m, " ", x);
HOUSE = [998244353, 469762049, 167772161];
SOME = [3, 5, 17, 257, 65537, TOP, 9, 15, 25, 85, 289, 1105, 3^19, 5^13, 17^7, 257^3, 12289^2, 12289 * 40961, 3 * 5 * 7 * 11 * 13];
{
for (n = 1, 12,
  N = 2^n;
  foreach (HOUSE, m, say(n, m, lift(Mod(3, m)^((m - 1) / N))); say(n, m, root(m, N)));
  foreach (SOME, m, if (has(m, N), say(n, m, root(m, N))));
  m = top(N); say(n, m, root(m, N));
  for (i = 1, 4, foreach ([prime1(N, TOP), product(N), power(N), many(N)], m, say(n, m, root(m, N))));
  if (n <= 4, for (i = 1, 6, m = odd(N); say(n, m, root(m, N))));
);
}
