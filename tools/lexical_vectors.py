#!/usr/bin/env python3
"""Writes what the program lexical_vectors should print, crates/lexical_vectors/stdout, from the texts in its data/texts.

An independent reading of lines, tokens and literals by regular expressions; it is not made from what the program prints.
A line of data/texts is a text with \\n, \\r, \\t, \\0, \\\\ and \\xHH for those bytes. A token is printed as kind@start-end, a literal
with its decoded bytes, digits with their value held at 2147483648, the keywords with their names.
"""
import os
import re

HERE = os.path.join(os.path.dirname(os.path.abspath(__file__)), '..', 'crates', 'lexical_vectors')
LABELS = 'keynote-version local-constants authorizer licensees conditions comment signature'.split()
TWO = {o: 16 + i for i, o in enumerate('-> && || == != <= >= ~='.split())}
ONE = {o: 24 + i for i, o in enumerate('( ) { } , ; = ! < > . $ @ & + - * / % ^'.split())}
LABEL = re.compile('(%s):' % '|'.join(LABELS), re.I)
UNIT = re.compile(r'\\\n[ \t\n]*|\\[ntrf]|\\0[0-7]{1,2}|\\[1-7][0-7]{2}|\\[^\0\n]|"|[^"\\\n\r\0]', re.S)
NAME = re.compile(r'[A-Za-z_][A-Za-z0-9_]*')
FLOAT = re.compile(r'[0-9]+\.[0-9]+')
DIGITS = re.compile(r'[0-9]+')


def literal(t, i):
    """The end of the literal that opens at i and its bytes, or None."""
    out, p = [], i + 1
    while True:
        m = UNIT.match(t, p)
        if not m:
            return None
        u, p = m.group(), m.end()
        if u == '"':
            return p, bytes(out)
        if u[0] != '\\':
            out.append(ord(u))
        elif u[1] == '\n':
            pass
        elif len(u) == 2:
            out.append({'n': 10, 't': 9, 'r': 13, 'f': 12}.get(u[1], ord(u[1])))
        else:
            v = int(u[1:], 8)
            if v > 255:
                return None
            out += u[1:].encode() if v == 0 else [v]


def line_start(t, p, field):
    """What a line that begins at p gives: a token that ends the reading, a label, or None for a line to read on."""
    line = t[p:].split('\n', 1)[0]
    bad = '3@%d-%d' % (p, p)
    if not line.strip(' \t'):
        return bad, None
    m = LABEL.match(t, p)
    if m:
        return None, m
    if line[0] not in ' \t#' or (field is None and not line.lstrip(' \t').startswith('#')):
        return bad, None
    return None, None


def visible(t, p, field):
    """The token at p and the place behind it."""
    if t[p] == '"':
        r = literal(t, p)
        return r and ('11@%d-%d=%s' % (p, r[0], r[1].hex()), r[0])
    m = NAME.match(t, p)
    if m:
        word = m.group().lower()
        return '12@%d-%d' % (p, m.end()) + ('=' + word if word in ('true', 'false') else ''), m.end()
    m = FLOAT.match(t, p)
    if m:
        return '14@%d-%d' % (p, m.end()), m.end()
    m = DIGITS.match(t, p)
    if m:
        return '13@%d-%d=%d' % (p, m.end(), min(int(m.group()), 2 ** 31)), m.end()
    if field == 'licensees' and t.startswith('-of', p):
        return '15@%d-%d' % (p, p + 3), p + 3
    if t[p:p + 2] in TWO:
        return '%d@%d-%d' % (TWO[t[p:p + 2]], p, p + 2), p + 2
    if t[p] in ONE:
        return '%d@%d-%d' % (ONE[t[p]], p, p + 1), p + 1
    return None


def tokens(t):
    out, p, field, fresh, n = [], 0, None, True, len(t)
    while p < n:
        if fresh:
            fresh = False
            bad, m = line_start(t, p, field)
            if bad:
                return out + [bad]
            if m:
                field = m.group(1).lower()
                out.append('%d@%d-%d' % (4 + LABELS.index(field), p, m.end()))
                p = m.end()
                continue
        if t[p] == '\n':
            p, fresh = p + 1, True
        elif field == 'comment' or t[p] == '#':
            e = t.find('\n', p)
            e = n if e < 0 else e
            z = t.find('\0', p, e)
            if z >= 0:
                return out + ['1@%d-%d' % (z, z)]
            p = e
        elif t[p] in ' \t':
            p += 1
        else:
            r = visible(t, p, field)
            if not r:
                return out + ['1@%d-%d' % (p, p)]
            out.append(r[0])
            p = r[1]
    return out + ['0@%d-%d' % (n, n)]


def unescape(line):
    def one(m):
        c = m.group(1)
        return chr(int(c[1:], 16)) if c[0] == 'x' else {'n': '\n', 'r': '\r', 't': '\t', '0': '\0', '\\': '\\'}[c]
    return re.sub(r'\\(x[0-9a-f]{2}|.)', one, line)


with open(os.path.join(HERE, 'data', 'texts'), encoding='utf-8') as f:
    texts = f.read().split('\n')[:-1]
with open(os.path.join(HERE, 'stdout'), 'w') as f:
    f.write(''.join(' '.join(tokens(unescape(line))) + '\n' for line in texts))
