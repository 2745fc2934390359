"""A SHA-2 block function in C, with its words in locals: what one of our own could take."""
import hashlib
import math
import pathlib
import subprocess
import tempfile

import command
import counting

PROGRAM = """
#include <stdint.h>
#include <stdio.h>
#include <stdlib.h>
typedef uint%(bits)d_t word;
#define R(x, n) (((x) >> (n)) | ((x) << (%(bits)d - (n))))
#define A(x) R((x) ^ R((x) ^ R(x, %(a2)d), %(a1)d), %(a0)d)
#define E(x) R((x) ^ R((x) ^ R(x, %(e2)d), %(e1)d), %(e0)d)
#define L(x) (R((x) ^ R(x, %(l1)d), %(l0)d) ^ ((x) >> %(l2)d))
#define M(x) (R((x) ^ R(x, %(m1)d), %(m0)d) ^ ((x) >> %(m2)d))
#define STEP(a, b, c, d, e, f, g, h, k, w) { \\
  word t = h + E(e) + (g ^ (e & (f ^ g))) + k + w; d += t; h = t + A(a) + (b ^ ((a ^ b) & (b ^ c))); }
#define FIRST(i) w[i]
#define NEXT(i) (w[(i) & 15] += M(w[((i) + 14) & 15]) + w[((i) + 9) & 15] + L(w[((i) + 1) & 15]))
#define EIGHT(i, X) \\
  STEP(a, b, c, d, e, f, g, h, K[i], X(i)) STEP(h, a, b, c, d, e, f, g, K[i + 1], X(i + 1)) \\
  STEP(g, h, a, b, c, d, e, f, K[i + 2], X(i + 2)) STEP(f, g, h, a, b, c, d, e, K[i + 3], X(i + 3)) \\
  STEP(e, f, g, h, a, b, c, d, K[i + 4], X(i + 4)) STEP(d, e, f, g, h, a, b, c, K[i + 5], X(i + 5)) \\
  STEP(c, d, e, f, g, h, a, b, K[i + 6], X(i + 6)) STEP(b, c, d, e, f, g, h, a, K[i + 7], X(i + 7))
static const word K[] = {%(steps)s};
__attribute__((noinline)) void block(word *state, const uint8_t *bytes) {
  word w[16];
  for (int i = 0; i < 16; i++) w[i] = __builtin_bswap%(bits)d(((const word *)bytes)[i]);
  word a = state[0], b = state[1], c = state[2], d = state[3], e = state[4], f = state[5], g = state[6], h = state[7];
  EIGHT(0, FIRST) EIGHT(8, FIRST) %(rest)s
  state[0] += a; state[1] += b; state[2] += c; state[3] += d; state[4] += e; state[5] += f; state[6] += g; state[7] += h;
}
int main(int count, char **words) {
  word state[8] = {%(start)s};
  _Alignas(word) uint8_t bytes[2 * %(bits)d] = {0x80};
  for (int left = atoi(words[1]); left > 0; left--) block(state, bytes);
  for (int i = 0; i < 8; i++) printf("%%0*llx", %(bits)d / 4, (unsigned long long)state[i]);
}
"""
# The rotations and shifts of FIPS 180-4, 4.1.2 and 4.1.3, the rotations nested.
SHA256 = dict(bits=32, a0=2, a1=11, a2=9, e0=6, e1=5, e2=14, l0=7, l1=11, l2=3, m0=17, m1=2, m2=10)
SHA512 = dict(bits=64, a0=28, a1=6, a2=5, e0=14, e1=4, e2=23, l0=1, l1=7, l2=7, m0=19, m1=42, m2=6)


def primes(count):
    found, number = [], 2
    while len(found) < count:
        if all(number % prime for prime in found):
            found.append(number)
        number += 1
    return found


def cube_root(number):
    root = 1 << (number.bit_length() + 2) // 3
    while (lower := (2 * root + number // root**2) // 3) < root:
        root = lower
    return root


def words_of(roots, bits):
    return ', '.join('%du' % (root % 2**bits) + 'll' * (bits == 64) for root in roots)


def program_of(form, steps):
    bits = form['bits']
    return PROGRAM % dict(
        form,
        steps=words_of((cube_root(prime << 3 * bits) for prime in primes(steps)), bits),
        start=words_of((math.isqrt(prime << 2 * bits) for prime in primes(8)), bits),
        rest=' '.join('EIGHT(%d, NEXT)' % at for at in range(16, steps, 8)),
    )


def each(program):
    """What a block takes: the difference of two runs that are 1,000 blocks apart."""
    return (counting.instructions([str(program), '1100']) - counting.instructions([str(program), '100'])) // 1000


def rows(compilers):
    """A line for each hash and compiler. The digest of the empty message is compared with Python's first."""
    for compiler in compilers or ['cc']:
        for name, form, steps in ('sha256', SHA256, 64), ('sha512', SHA512, 80):
            with tempfile.TemporaryDirectory() as folder:
                source, program = pathlib.Path(folder, 'block.c'), pathlib.Path(folder, 'block')
                source.write_text(program_of(form, steps), encoding='utf-8')
                subprocess.run([compiler, '-O2', '-march=x86-64-v2', '-o', program, source], check=True)
                digest = subprocess.run([program, '1'], check=True, capture_output=True, text=True).stdout
                if digest != hashlib.new(name, b'').hexdigest():
                    command.stop('%s by %s hashes nothing to %s' % (name, compiler, digest), 1)
                yield '%s by %s: %d instructions a block' % (name, compiler, each(program))
