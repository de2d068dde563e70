#!/usr/bin/env python3
"""Writes the rulings that are run: crates/rulings/data/rulings and stdout, and lampsickle's stdin and stdout.

What each ruling should give is worked out here or in second/data/open-points.tsv, from the rules, and not by running the program.
"""
import os

ROOT = os.path.join(os.path.dirname(os.path.abspath(__file__)), '..')
POLICY = b'Authorizer: "POLICY"\n'
HOLD = [b'hold', b'immediate']


def counted(b):
    return len(b).to_bytes(2, 'big') + b


def record(values, requesters, attributes, assertions):
    out = bytes([1, len(values)]) + b''.join(counted(v) for v in values)
    out += bytes([len(requesters)]) + b''.join(counted(r) for r in requesters)
    out += bytes([len(attributes)]) + b''.join(counted(n) + counted(v) for n, v in attributes)
    return out + bytes([len(assertions)]) + b''.join(bytes([s]) + counted(t) for s, t in assertions)


def answered(rank, of, rounds, reached, *entries):
    lines = ['rank %d of %d' % (rank, of), 'rounds %d' % rounds, 'reached %d' % reached]
    return lines + ['assertion %d reason %d at %d' % (i, *entry) for i, entry in enumerate(entries)]


def refused(number, place):
    return ['refused %d at %d' % (number, place)]


KEPT = (0, 0)
rulings = []


def ruling(name, bytes_, expected):
    rulings.append((name.encode(), bytes_, expected))


def local(name, texts, expected, requesters=(b'a',), values=HOLD, attributes=()):
    ruling(name, record(values, requesters, attributes, [(1, t) for t in texts]), expected)


def licence(authorizer, licensees):
    return b'Authorizer: "%s"\nLicensees: %s' % (authorizer, licensees)


def holds(name, test, truth):
    local(name, [POLICY + b'Conditions: ' + test + b';'], answered(truth, 2, truth, 1, KEPT))


# The rulings that are also proved.
first = licence(b'POLICY', b'"a"')
local('first-ruling', [first], answered(1, 2, 2, 2, KEPT))
web = [licence(b'POLICY', b'"a"'), licence(b'a', b'"b"'), licence(b'b', b'"a"')]
local('loop-from-c', web, answered(0, 2, 0, 3, KEPT, KEPT, KEPT), [b'c'])
local('loop-from-b', web, answered(1, 2, 3, 3, KEPT, KEPT, KEPT), [b'b'])
local('no-assertions', [], answered(0, 2, 0, 1))
three = b'-of("a","b","c")'
# The requesters a and c have rank 1 from round 1 on, though POLICY stays at 0.
local('two-of-three', [licence(b'POLICY', b'2' + three)], answered(1, 2, 2, 4, KEPT), [b'a', b'c'])
local('three-of-three', [licence(b'POLICY', b'3' + three)], answered(0, 2, 1, 4, KEPT), [b'a', b'c'])
local('two-of-a-twice', [licence(b'POLICY', b'2-of("a","a")')], answered(1, 2, 2, 2, KEPT))
holds('error-or-true', b'1/0 == 1 || true', 0)
holds('not-error', b'!(1/0 == 1)', 0)
holds('true-or-error', b'true || 1/0 == 1', 1)
for n, test in enumerate([b'-2^2 == 4', b'2^3^2 == 64', b'-7/2 == -3', b'@"-1.5" == -2', b'@"1e3" == 0', b'@"2147483648" == 0']):
    holds('integer-%d' % n, test, 1)
# r has rank 3 from round 1 on, the five their ranks from round 2 on, POLICY its own from round 3 on.
ranks = [(b'p', b'0'), (b'q', b'1'), (b's', b'2'), (b't', b'2'), (b'u', b'3')]
five = [b'Authorizer: "%s"\nLicensees: "r"\nConditions: true -> "%s";' % rank for rank in ranks]
top = licence(b'POLICY', b'3-of("p","q","s","t","u")')
local('third-of-five', five + [top], answered(2, 4, 3, 7, *[KEPT] * 6), [b'r'], [b'0', b'1', b'2', b'3'])

# The rulings on reasons.
local('no-authorizer', [b'Licensees: "a"'], answered(0, 2, 0, 1, (3, 14)))
local('licensees-cut', [licence(b'POLICY', b'"a" &&')], answered(0, 2, 0, 1, (2, 38)))

# The rulings on limits. A licensee with its " && " takes 7 bytes, and the first lies at 32.
for n, expected in (16, answered(1, 2, 2, 2, KEPT)), (17, answered(0, 2, 0, 1, (7, 32 + 16 * 7))):
    local('licensees-%d' % n, [licence(b'POLICY', b' && '.join([b'"a"'] * n))], expected)
# The assertions' count byte lies at 23 + 1, behind that of the attributes.
local('assertions-200', [POLICY] * 200, answered(1, 2, 1, 1, *[KEPT] * 200))
local('assertions-201', [POLICY] * 201, refused(4, 24))
# The length of the first text lies behind that count and a standing.
for n, expected in (8192, answered(1, 2, 1, 1, KEPT)), (8193, refused(5, 26)):
    local('text-%d' % n, [POLICY + b'#' + b'x' * (n - 22)], expected)

# The misreadings that have been met.
local('licensees-empty', [POLICY + b'Licensees:'], answered(0, 2, 0, 1, KEPT))
local('licensees-missing', [POLICY], answered(1, 2, 1, 1, KEPT))
local('rounds-unreached', [POLICY, licence(b'x', b'"y"'), licence(b'y', b'"a"')], answered(1, 2, 1, 1, KEPT, KEPT, KEPT))

# The examples of RFC 2704, section 6, with the answers that it gives.
A = b'Authorizer: "POLICY"\nLicensees: "RSA:abc123"\n'
B = rb'''KeyNote-Version: 2
Local-Constants: Alice="DSA:4401ff92"  # Alice's key
                 Bob="RSA:d1234f"      # Bob's key
Authorizer: "RSA:abc123"
Licensees: Alice || Bob
Conditions: (app_domain == "RFC822-EMAIL") &&
            (address ~=   # only applies to one domain
              "^.*@keynote\\.research\\.att\\.com$");
Signature: "RSA-SHA1:213354f9"
'''
C = b'''KeyNote-Version: 2
Authorizer: "DSA:4401ff92"  # the Alice CA
Licensees: "DSA:12340987"   # mab's key
Conditions: ((app_domain == "RFC822-EMAIL") &&
             (name == "M. Blaze" || name == "") &&
             (address == "mab@keynote.research.att.com"));
Signature: "DSA-SHA1:ab23487"
'''
D = b'''KeyNote-Version: "2"
Authorizer: "DSA:4401ff92"   # the Alice CA
Licensees: "DSA:abc991" ||   # jf's DSA key
           "RSA:cde773" ||   # jf's RSA key
           "BFIK:fd091a"     # jf's BFIK key
Conditions: ((app_domain == "RFC822-EMAIL") &&
             (name == "J. Feigenbaum" || name == "") &&
             (address == "jf@keynote.research.att.com"));
Signature: "DSA-SHA1:8912aa"
'''
E = b'''Authorizer: "POLICY"
Licensees: "RSA:dab212" # the CFO's key
Conditions: (app_domain=="SPEND") && (@dollars < 10000);
'''
F = b'''KeyNote-Version: 2
Comment: This credential specifies a spending policy
Authorizer: "RSA:dab212"        # the CFO
Licensees: "DSA:feed1234" &&    # The vice president
               ("RSA:abc123" || # middle manager #1
                "DSA:bcd987" || # middle manager #2
                "DSA:cde333" || # middle manager #3
                "DSA:def975" || # middle manager #4
                "DSA:978add")   # middle manager #5
Conditions: (app_domain=="SPEND")  # note nested clauses
              -> { (@(dollars) < 2500)
                       -> _MAX_TRUST;
                   (@(dollars) < 7500)
                       -> "ApproveAndLog";
                 };
Signature: "RSA-SHA1:9867a1"
'''
G = b'''KeyNote-Version: 2
Authorizer: "POLICY"
Licensees: 2-of("DSA:feed1234", # The VP
                "RSA:abc123",   # Middle management clones
                "DSA:bcd987",
                "DSA:cde333",
                "DSA:def975",
                "DSA:978add")
Conditions: (app_domain=="SPEND") &&
            (@(dollars) < 1000);
'''
H = b'''KeyNote-Version: 2
Comment: This one credential is equivalent to six separate
         credentials, one for each VP and middle manager.
         Individually, they can spend up to $500, but if
         it's $100 or more, we log it.
Authorizer: "RSA:dab212"      # From the CFO
Licensees: "DSA:feed1234" ||  # The VP
           "RSA:abc123" ||    # The middle management clones
           "DSA:bcd987" ||
           "DSA:cde333" ||
           "DSA:def975" ||
           "DSA:978add"
Conditions: (app_domain="SPEND")  # nested clauses
              -> { (@(dollars) < 100) -> _MAX_TRUST;
                   (@(dollars) < 500) -> "ApproveAndLog";
                 };
Signature: "RSA-SHA1:186123"
'''
MAB = b'mab@keynote.research.att.com'
JF = b'jf@keynote.research.att.com'


def email(name, requester, attributes, rank, rounds):
    attributes = [(b'app_domain', b'RFC822-EMAIL')] + attributes
    bytes_ = record([b'_MIN', b'_MAX'], [requester], attributes, [(1, A), (2, B), (2, C), (2, D)])
    ruling(name, bytes_, answered(rank, 2, rounds, 8, KEPT, KEPT, KEPT, KEPT))


# All eight keys are reached. Where the class is 1 it comes by way of Alice, RSA:abc123 and POLICY: one round each, and one for the requester.
blaze, feigenbaum = (b'name', b'M. Blaze'), (b'name', b'J. Feigenbaum')
email('email-mab', b'DSA:12340987', [(b'address', MAB)], 1, 4)
email('email-mab-name', b'DSA:12340987', [(b'address', MAB), blaze], 1, 4)
email('email-other-address', b'DSA:12340987', [(b'address', b'angelos@dsl.cis.upenn.edu')], 0, 1)
email('email-other-key', b'DSA:abc991', [(b'address', MAB), blaze], 0, 1)
email('email-other-name', b'DSA:12340987', [(b'address', MAB), feigenbaum], 0, 1)
email('email-jf', b'DSA:abc991', [(b'address', JF)], 1, 4)
email('email-small-letters', b'dsa:12340987', [(b'address', MAB)], 1, 4)


def spend(name, h, requesters, dollars, rank, rounds, fault=KEPT):
    attributes = [(b'app_domain', b'SPEND'), (b'dollars', dollars), (b'unmentioned_attribute', b'whatever')]
    values = [b'Reject', b'ApproveAndLog', b'Approve']
    bytes_ = record(values, requesters, attributes, [(1, E), (2, F), (1, G), (2, h)])
    ruling(name, bytes_, answered(rank, 3, rounds, 8, KEPT, KEPT, KEPT, fault))


# POLICY, the CFO and six managers are reached, with or without H. Round 1 ranks the requesters, round 2 the CFO (by F or H) and
# POLICY (by G), round 3 POLICY by the CFO.
vp, m1, m3, m4, m5 = b'DSA:feed1234', b'RSA:abc123', b'DSA:cde333', b'DSA:def975', b'DSA:978add'
good = H.replace(b'app_domain="', b'app_domain=="')
spend('spend-one-45', good, [m5], b'45', 2, 3)
spend('spend-two-550', good, [m1, m3], b'550', 2, 2)
spend('spend-vp-5500', good, [vp, m3], b'5500', 1, 3)
spend('spend-one-150', good, [m3], b'150', 1, 3)
spend('spend-one-550', good, [m4], b'550', 0, 1)
spend('spend-two-5500', good, [m3, m5], b'5500', 0, 1)
# H as printed has "=" for "==": that token. Without H one signer isn't enough.
fault = (2, H.index(b'="SPEND'))
spend('spend-printed-45', H, [m5], b'45', 0, 1, fault)
spend('spend-printed-550', H, [m1, m3], b'550', 2, 2, fault)
spend('spend-printed-5500', H, [vp, m3], b'5500', 1, 3, fault)

# Sections 5.3.4, 4.3.1 and 4.4: clauses on user names, four spellings of a string, dereferences.
clauses = b'''Authorizer: "POLICY"
Conditions:
    @user_id == 0 -> "full_access";             # clause (1)
    @user_id < 1000 -> "user_access";           # clause (2)
    @user_id < 10000 -> "guest_access";         # clause (3)
    user_name == "root" -> "full_access";       # clause (4)
'''
access = [b'no_access', b'guest_access', b'user_access', b'full_access']
for n, (user, name, rank) in enumerate([(b'1073', b'root', 3), (b'19283', b'nobody', 0), (b'999', b'nobody', 2), (b'', b'', 3)]):
    attributes = [(b'user_id', user), (b'user_name', name)]
    local('clauses-%d' % n, [clauses], answered(rank, 4, min(rank, 1), 1, KEPT), [b'r'], access, attributes)
spellings = [
    rb'"this string contains a newline\n followed by one space."',
    b'"this string contains a newline\\n \\\n        followed by one space."',
    b'"this str\\\n           ing contains a \\\n             newline\\n followed by one space."',
    rb'"this string contains a newline\012\040followed by one space."',
]
for n, left in enumerate(spellings):
    holds('spelling-%d' % n, b' && '.join(left + b' == ' + right for right in spellings), 1)
foo = [(b'foo', b'bar'), (b'bar', b'xyz'), (b'xyz', b'qua')]
test = b'foo == "bar" && $("foo") == "bar" && $foo == "xyz"\n && $(foo) == "xyz" && $$foo == "qua"'
local('dereferences', [POLICY + b'Conditions: ' + test + b';'], answered(1, 2, 1, 1, KEPT), attributes=foo)

# Principals by reference: what a query's attributes name. The master's key is reached by the ship, and asks.
ship = b'Authorizer: "POLICY"\nLicensees: pilot && $("key_of_" . ship)\n'
master = b'Authorizer: $("key_of_" . ship)\nLicensees: "RSA:" . (clerk) || master\n'
port = [(b'ship', b'Ulla'), (b'key_of_Ulla', b'DSA:4401ff92'), (b'pilot', b'RSA:d1234f'), (b'clerk', b'abc123'), (b'master', b'm')]
local('references', [ship, master], answered(1, 2, 3, 5, KEPT, KEPT), [b'rsa:d1234f', b'rsa:abc123'], attributes=port)
local('reference-unset', [ship, master], answered(0, 2, 0, 1, (10, 41), (10, 12)), [b'RSA:d1234f', b'RSA:abc123'], attributes=port[2:])
local('reference-long', [ship], answered(0, 2, 0, 1, (10, 32)), attributes=port[:2] + [(b'pilot', b'p' * 257)])

# The open points of the rules, as they are ruled.
for page in 'open-points.tsv', 'open-points-02.tsv', 'floats.tsv', 'references.tsv':
    with open(os.path.join(ROOT, 'second', 'data', page)) as f:
        for line in f:
            name, text, expected = line.rstrip('\n').split('\t')
            ruling(name, bytes.fromhex(text), expected.split('|')[:-1])

file = b''.join(counted(name) + counted(bytes_) for name, bytes_, _ in rulings)
assert 65535 < len(file) <= 262144
rulings.append((b'too-long', file, refused(1, 0)))


def write(path, bytes_):
    path = os.path.join(ROOT, 'crates', path)
    os.makedirs(os.path.dirname(path), exist_ok=True)
    with open(path, 'wb') as f:
        f.write(bytes_)


def lines(expected, end):
    return ''.join(line + end for line in expected).encode()


write('rulings/data/rulings', file)
write('rulings/stdout', b''.join(name + b' ' + lines(expected, '|') + b'\n' for name, _, expected in rulings))
name, bytes_, expected = rulings[0]
with open(os.path.join(ROOT, 'examples', 'first-ruling.record'), 'rb') as f:
    assert bytes_ == f.read() and len(bytes_) == 63
write('lampsickle/stdin', bytes_)
write('lampsickle/stdout', lines(expected, '\n'))
