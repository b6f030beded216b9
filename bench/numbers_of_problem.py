#!/usr/bin/env python3
"""The numbers that basis_timing reads, of a problem: its ideal and the denominator as one more generator, homogenised.

usage: numbers_of_problem.py CAP < problem
"""
import re
import sys


class Reader:
    """Polynomials as maps from exponents of six variables to coefficients modulo a prime."""

    def __init__(self, prime, letters, text):
        self.prime, self.letters = prime, letters
        self.tokens = re.findall(r"\d+|[A-Za-z]|[-+*^()]", text)

    def peek(self):
        return self.tokens[0] if self.tokens else None

    def take(self):
        return self.tokens.pop(0)

    def constant(self, number):
        return {(0,) * 6: number % self.prime}

    def plus(self, f, g, sign=1):
        total = dict(f)
        for mono, coeff in g.items():
            total[mono] = (total.get(mono, 0) + sign * coeff) % self.prime
        return {mono: coeff for mono, coeff in total.items() if coeff}

    def times(self, f, g):
        total = {}
        for a, c in f.items():
            for b, e in g.items():
                mono = tuple(x + y for x, y in zip(a, b))
                total[mono] = (total.get(mono, 0) + c * e) % self.prime
        return {mono: coeff for mono, coeff in total.items() if coeff}

    def power(self, f, exponent):
        result = self.constant(1)
        for _ in range(exponent):
            result = self.times(result, f)
        return result

    def sum(self):
        sign = -1 if self.peek() == "-" else 1
        if self.peek() in ("+", "-"):
            self.take()
        total = self.plus({}, self.product(), sign)
        while self.peek() in ("+", "-"):
            sign = 1 if self.take() == "+" else -1
            total = self.plus(total, self.product(), sign)
        return total

    def product(self):
        total = self.factor()
        while self.peek() is not None and self.peek() not in "+-)":
            if self.peek() == "*":
                self.take()
            total = self.times(total, self.factor())
        return total

    def factor(self):
        token = self.take()
        if token == "(":
            base = self.sum()
            self.take()
        elif token.isdigit():
            base = self.constant(int(token))
        else:
            place = self.letters.index(token)
            base = {tuple(int(i == place) for i in range(6)): 1 % self.prime}
            if self.peek() is not None and self.peek().isdigit():
                base = self.power(base, int(self.take()))
        if self.peek() == "^":
            self.take()
            base = self.power(base, int(self.take()))
        return base


def homogenised(f, variables):
    """Pairs of a coefficient and the exponents of the first variables and the homogenising one."""
    degree = max((sum(mono) for mono in f), default=0)
    return [(coeff, mono[:variables] + (degree - sum(mono),)) for mono, coeff in f.items()]


def numbers(prime, cap, variables, shift, vectors):
    """The input of basis_timing: a vector is a list of terms, each a coefficient, a component and exponents."""
    lines = [f"{prime} {cap} {variables} {shift}"]
    for vector in vectors:
        terms = [" ".join(map(str, (coeff, component, *mono))) for coeff, component, mono in vector]
        lines.append(f"{len(vector)} " + " ".join(terms))
    return "\n".join(lines) + "\n"


def polynomials(text):
    """The prime, the letters and the polynomials of a problem."""
    text = re.sub(r"//.*", "", text)
    ring = re.search(r"ring\s+\w+\s*=\s*(\d+)\s*,\s*\(?([^;]*?)\)?\s*,\s*dp", text)
    prime = int(ring.group(1))
    letters = re.findall(r"[A-Za-z]", ring.group(2))
    bodies = re.findall(r"(?:ideal|poly)\s+\w+\s*=([^;]*);", text)
    return prime, letters, [Reader(prime, letters, f).sum() for body in bodies for f in body.split(",")]


def main():
    prime, letters, ideal = polynomials(sys.stdin.read())
    vectors = [[(coeff, 0, mono) for coeff, mono in homogenised(f, len(letters))] for f in ideal]
    sys.stdout.write(numbers(prime, sys.argv[1], len(letters), 0, vectors))


if __name__ == "__main__":
    main()
