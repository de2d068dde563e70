//! What an assertion reads of a query: in its Conditions, and where its principals
//! stand as string expressions.

use lampsickle::Query;

use super::literal;
use super::pattern;
use super::tokens::{Field, Kind, Token, Tokens};
use super::{FLOAT_DIGITS, STRING_BYTES};
use crate::text::quoted;

/// What an assertion reads.
#[derive(Default)]
pub struct Reading {
    /// Names that no constant sets, each with its place, as often as it stands.
    pub names: Vec<(Vec<u8>, usize)>,
    /// A "$" stands there, so that any name may be read.
    pub computed: bool,
    /// Strings of which "@" makes integers, and "&" floats.
    pub conversions: Vec<Conversion>,
    /// What stands behind "~=" and is no pattern.
    pub flaws: Vec<Flawed>,
}

/// A pattern that is none.
#[derive(Clone, Debug, PartialEq, Eq)]
pub struct Flawed {
    /// What is wrong in a literal; the "~=" before another string.
    pub place: usize,
    /// Whether the pattern is one literal.
    pub literal: bool,
    pub pattern: Vec<u8>,
    pub words: String,
}

impl Flawed {
    /// Why the test is an error.
    pub fn told(&self) -> String {
        let which = if self.literal { "this".to_string() } else { quoted(&self.pattern) };
        format!("{which} is no pattern, so the test is an error: {}", self.words)
    }
}

/// A string that is converted.
#[derive(Clone, Debug, PartialEq, Eq)]
pub struct Conversion {
    /// The place of the "@" or "&".
    pub place: usize,
    pub to: Number,
    pub string: Text,
}

/// What a string is converted to.
#[derive(Clone, Copy, Debug, PartialEq, Eq)]
pub enum Number {
    Integer,
    Float,
}

impl Number {
    /// The operator that converts.
    pub fn sign(self) -> &'static str {
        match self {
            Self::Integer => "@",
            Self::Float => "&",
        }
    }

    /// Which numbers aren't made 0, in words.
    pub fn range(self) -> String {
        match self {
            Self::Integer => "number from -2147483648 to 2147483647".into(),
            Self::Float => format!("number of at most {FLOAT_DIGITS} digits"),
        }
    }

    /// Whether a string is such a number.
    pub fn holds(self, string: &[u8]) -> bool {
        match self {
            Self::Integer => integer(string).is_some(),
            Self::Float => {
                let digits = string.iter().filter(|byte| byte.is_ascii_digit()).count();
                parts(string).is_some() && digits <= FLOAT_DIGITS
            }
        }
    }
}

/// What a string expression comes to.
#[derive(Clone, Debug, PartialEq, Eq)]
pub struct Text {
    pub value: Vec<u8>,
    /// The name that it consists of.
    pub name: Option<Vec<u8>>,
    /// Whether that name is set; what isn't a name is.
    pub set: bool,
    /// A string on the way is too long, which is an error.
    pub error: bool,
}

/// A constant's name and value.
type Constant = (Vec<u8>, Vec<u8>);

/// What an assertion reads that was kept.
pub fn read(text: &[u8], query: &Query) -> Reading {
    let mut reading = principals(text, query);
    let all: Vec<Token> = Tokens::new(text).collect();
    let tokens: Vec<Token> = of(&all, Field::Conditions);
    let scope = Scope::new(text, &tokens, &all, query);
    scope.names(&mut reading);
    for (index, token) in tokens.iter().enumerate() {
        match (token.kind, token.of(text)) {
            (Kind::Sign, b"@") => reading.conversions.extend(scope.conversion(index, Number::Integer)),
            (Kind::Sign, b"&") => reading.conversions.extend(scope.conversion(index, Number::Float)),
            (Kind::Sign, b"~=") => reading.flaws.extend(scope.flawed(index)),
            _ => {}
        }
    }
    reading
}

/// What Authorizer and Licensees read.
pub fn principals(text: &[u8], query: &Query) -> Reading {
    let all: Vec<Token> = Tokens::new(text).collect();
    let mut reading = Reading::default();
    for field in [Field::Authorizer, Field::Licensees] {
        Scope::new(text, &of(&all, field), &all, query).names(&mut reading);
    }
    reading
}

/// What the expression for a principal comes to whose first token that is no bracket
/// stands at a place.
pub fn identifier(text: &[u8], place: usize, query: &Query) -> Option<Text> {
    let all: Vec<Token> = Tokens::new(text).collect();
    let field = all.iter().find(|token| token.start == place)?.field?;
    let tokens = of(&all, field);
    let scope = Scope::new(text, &tokens, &all, query);
    let first = tokens.iter().position(|token| token.start == place)?;
    let open = tokens[..first].iter().rev().take_while(|token| token.is(text, b"(")).count();
    // The outermost bracket that is the string's; others are the licensees'.
    let (string, _) = (first - open..=first).find_map(|start| scope.joined(start))?;
    Some(string)
}

/// A field's tokens behind its label.
fn of(tokens: &[Token], field: Field) -> Vec<Token> {
    tokens.iter().filter(|token| token.field == Some(field) && token.kind != Kind::Label).copied().collect()
}

/// The constants that are set before a place.
pub fn constants(text: &[u8], place: usize, tokens: &[Token]) -> Vec<Constant> {
    let constants = of(tokens, Field::Constants);
    let triples = constants.windows(3).filter(|triple| triple[2].end <= place);
    let named = triples.filter(|triple| triple[0].kind == Kind::Name && triple[1].is(text, b"="));
    let value = |token: Token| literal::read(text, token.start).ok().map(|literal| literal.value);
    let set = named.filter(|triple| triple[2].kind == Kind::Literal);
    set.filter_map(|triple| Some((triple[0].of(text).to_vec(), value(triple[2])?))).collect()
}

/// What names stand for in a field of a text.
struct Scope<'a> {
    text: &'a [u8],
    tokens: &'a [Token],
    query: &'a Query,
    constants: Vec<Constant>,
}

impl<'a> Scope<'a> {
    /// The names of a field, by the constants that stand before it.
    fn new(text: &'a [u8], tokens: &'a [Token], all: &[Token], query: &'a Query) -> Self {
        let start = tokens.first().map_or(0, |token| token.start);
        Self { text, tokens, query, constants: constants(text, start, all) }
    }

    /// Adds the names that the field's tokens read.
    fn names(&self, reading: &mut Reading) {
        for token in self.tokens {
            match (token.kind, token.of(self.text)) {
                (Kind::Name, name) if self.constant(name).is_none() => reading.names.push((name.to_vec(), token.start)),
                (Kind::Sign, b"$") => reading.computed = true,
                _ => {}
            }
        }
    }

    fn constant(&self, name: &[u8]) -> Option<&Vec<u8>> {
        self.constants.iter().find(|constant| constant.0 == name).map(|constant| &constant.1)
    }

    fn lookup(&self, name: &[u8]) -> Option<Vec<u8>> {
        let set = || self.query.attributes.iter().find(|attribute| attribute.0 == name).map(|attribute| &attribute.1);
        match (self.constant(name), reserved(name, self.query)) {
            (Some(value), _) => Some(value.clone()),
            (None, Some(value)) => Some(value),
            (None, None) => set().cloned(),
        }
    }

    fn named(&self, name: &[u8]) -> Text {
        let value = self.lookup(name);
        Text { set: value.is_some(), value: value.unwrap_or_default(), name: Some(name.to_vec()), error: false }
    }

    /// What a "@" or "&" converts.
    fn conversion(&self, index: usize, to: Number) -> Option<Conversion> {
        let (string, _) = self.operand(index + 1)?;
        Some(Conversion { place: self.tokens[index].start, to, string })
    }

    /// What the operand at a token comes to, and the token behind it.
    fn operand(&self, index: usize) -> Option<(Text, usize)> {
        let token = *self.tokens.get(index)?;
        match (token.kind, token.of(self.text)) {
            (Kind::Literal, _) => {
                let value = literal::read(self.text, token.start).ok()?.value;
                Some((Text { value, name: None, set: true, error: false }, index + 1))
            }
            (Kind::Name, name) => Some((self.named(name), index + 1)),
            (Kind::Sign, b"$") => {
                let (name, next) = self.operand(index + 1)?;
                Some((Text { error: name.error, ..self.named(&name.value) }, next))
            }
            (Kind::Sign, b"(") => {
                let (text, next) = self.joined(index + 1)?;
                self.tokens.get(next)?.is(self.text, b")").then_some((text, next + 1))
            }
            _ => None,
        }
    }

    /// What is wrong with the pattern behind a "~=".
    fn flawed(&self, index: usize) -> Option<Flawed> {
        let (string, next) = self.joined(index + 1)?;
        let flaw = pattern::flawed(&string.value)?;
        let mut literals = self.tokens[index + 1..next].iter().filter(|token| !self.is_bracket(token));
        let (first, more) = (literals.next()?, literals.next());
        let literal = first.kind == Kind::Literal && more.is_none();
        let place = match literal {
            true => literal::place_of(self.text, first.start, flaw.place),
            false => self.tokens[index].start,
        };
        Some(Flawed { place, literal, pattern: string.value, words: flaw.words })
    }

    fn is_bracket(&self, token: &Token) -> bool {
        token.is(self.text, b"(") || token.is(self.text, b")")
    }

    /// Operands joined by ".".
    fn joined(&self, index: usize) -> Option<(Text, usize)> {
        let (mut text, mut next) = self.operand(index)?;
        while self.tokens.get(next).is_some_and(|token| token.is(self.text, b".")) {
            let (right, behind) = self.operand(next + 1)?;
            let value = [text.value, right.value].concat();
            let error = text.error || right.error || value.len() > STRING_BYTES;
            text = Text { value, name: None, set: true, error };
            next = behind;
        }
        Some((text, next))
    }
}

/// What is set in every query.
pub fn reserved(name: &[u8], query: &Query) -> Option<Vec<u8>> {
    match name {
        b"_MIN_TRUST" => query.values.first().cloned(),
        b"_MAX_TRUST" => query.values.last().cloned(),
        b"_VALUES" => Some(query.values.join(&b',')),
        b"_ACTION_AUTHORIZERS" => Some(query.requesters.join(&b',')),
        _ => None,
    }
}

/// A number's "-" or none, its digits, and its digits behind a point or "0".
fn parts(string: &[u8]) -> Option<(bool, &[u8], &[u8])> {
    let (negative, digits) = match string.strip_prefix(b"-") {
        Some(digits) => (true, digits),
        None => (false, string),
    };
    let (whole, part) = match digits.iter().position(|byte| *byte == b'.') {
        Some(point) => (&digits[..point], &digits[point + 1..]),
        None => (digits, &b"0"[..]),
    };
    let digits = !whole.is_empty() && !part.is_empty() && whole.iter().chain(part).all(u8::is_ascii_digit);
    digits.then_some((negative, whole, part))
}

/// The integer that "@" makes of a string, rounded down, where it is a number in range.
pub fn integer(string: &[u8]) -> Option<i32> {
    let (negative, whole, part) = parts(string)?;
    let size = whole
        .iter()
        .try_fold(0_i64, |size, digit| (size <= i64::from(u32::MAX)).then(|| 10 * size + i64::from(digit - b'0')))?;
    let over = i64::from(part.iter().any(|digit| *digit != b'0'));
    i32::try_from(if negative { -size - over } else { size }).ok()
}

#[cfg(test)]
mod tests {
    use super::*;
    use lampsickle::ask;

    fn query(attributes: &[(&str, &str)]) -> Query {
        let pair = |(name, value): &(&str, &str)| (name.as_bytes().to_vec(), value.as_bytes().to_vec());
        Query {
            values: vec![b"no".to_vec(), b"yes".to_vec()],
            requesters: vec![b"a".to_vec()],
            attributes: attributes.iter().map(pair).collect(),
            ..Query::default()
        }
    }

    #[test]
    fn names_and_conversions() {
        let text = b"Local-Constants: c=\"5\"\nAuthorizer: \"POLICY\"
Conditions: @x<1 && @(c . (y))==2 && $z==\"w\" && &y<1.5 && -&(c)>&c;";
        let reading = read(text, &query(&[("y", "6")]));
        let names: Vec<&[u8]> = reading.names.iter().map(|(name, _)| name.as_slice()).collect();
        assert_eq!((names, reading.computed), (vec![&b"x"[..], b"y", b"z", b"y"], true));
        let values: Vec<&[u8]> = reading.conversions.iter().map(|item| item.string.value.as_slice()).collect();
        assert_eq!(values, [&b""[..], b"56", b"6", b"5", b"5"]);
        let to: Vec<&str> = reading.conversions.iter().map(|item| item.to.sign()).collect();
        assert_eq!(to, ["@", "@", "&", "&", "&"]);
        assert!(!reading.conversions[0].string.set && reading.conversions[1].string.set);
    }

    #[test]
    fn patterns_that_are_none() {
        let text =
            b"Authorizer: \"a\"\nConditions: x~=\"a\\\\.(\" && (x~=(\"b\")) && x~=p && x~=\"c\" . p && x~=(\"\\052\");";
        let reading = read(text, &query(&[("p", "[a")]));
        let found: Vec<(usize, bool, &[u8])> =
            reading.flaws.iter().map(|flaw| (flaw.place, flaw.literal, flaw.pattern.as_slice())).collect();
        let place = |part: &str, more: usize| String::from_utf8_lossy(text).find(part).expect("it stands there") + more;
        let expected: [(usize, bool, &[u8]); 4] = [
            (place("(\" &&", 0), true, b"a\\.("),
            (place("~=p", 0), false, b"[a"),
            (place("~=\"c", 0), false, b"c[a"),
            (place("\\052", 0), true, b"*"),
        ];
        assert_eq!(found, expected);
    }

    #[test]
    fn names_of_principals() {
        let text = b"Authorizer: a . \"b\"\nLocal-Constants: c=\"5\"\nLicensees: c || (d) && 1-of(\"e\", f)";
        let names = |reading: Reading| -> Vec<Vec<u8>> { reading.names.into_iter().map(|(name, _)| name).collect() };
        assert_eq!(names(principals(text, &query(&[]))), [b"a", b"d", b"f"]);
        assert_eq!(names(read(text, &query(&[]))), [b"a", b"d", b"f"]);
        assert!(principals(b"Authorizer: $\"a\"", &query(&[])).computed);
        assert!(!principals(b"Authorizer: \"$\"\nConditions: $x==\"\";", &query(&[])).computed);
    }

    #[test]
    fn identifiers() {
        let long = "v".repeat(2_048);
        let query = query(&[("x", "y"), ("y", "k"), ("v", &long)]);
        let of = |text: &str, part: &str| {
            let place = text.find(part).expect("it stands there");
            let found = identifier(text.as_bytes(), place, &query).expect("an expression");
            (String::from_utf8(found.value).expect("text"), found.set, found.error)
        };
        let told = |value: &str| (value.to_string(), true, false);
        assert_eq!(of("Authorizer: ((x) . (\"a\" . y))", "x"), told("yak"));
        assert_eq!(of("Authorizer: \"b\"\nLicensees: ($x || (x . \"\"))", "$x"), told("k"));
        assert_eq!(of("Authorizer: \"b\"\nLicensees: ($x || ((x) . \"\"))", "x)"), told("y"));
        assert_eq!(of("Authorizer: \"b\"\nLicensees: 1-of(((z)), \"c\")", "z)"), (String::new(), false, false));
        assert_eq!(of("Local-Constants: x=\"c\"\nAuthorizer: x . x", "x ."), told("cc"));
        assert_eq!(of("Authorizer: _ACTION_AUTHORIZERS . _MIN_TRUST", "_A"), told("ano"));
        assert_eq!(of("Authorizer: $(v . v) . x", "$"), told("y"));
        assert_eq!(of("Authorizer: $(v . v . x) . x", "$"), ("y".into(), true, true));
        assert_eq!(of("Authorizer: $$\"x\"", "$"), told("k"));
    }

    #[test]
    fn later_constants_set_nothing() {
        let reading = read(b"Conditions: x==\"\";\nLocal-Constants: x=\"5\"\nAuthorizer: \"a\"", &query(&[]));
        assert_eq!(reading.names, [(b"x".to_vec(), 12)]);
    }

    #[test]
    fn integers() {
        let of = |string: &str| integer(string.as_bytes());
        assert_eq!((of("-1.5"), of("1.9"), of("-2.0"), of("007")), (Some(-2), Some(1), Some(-2), Some(7)));
        assert_eq!((of("2147483647.9"), of("-2147483648")), (Some(i32::MAX), Some(i32::MIN)));
        for string in ["", "-", "1.", ".5", "+1", " 1", "1e3", "2147483648", "-2147483648.5", "99999999999999999999"] {
            assert_eq!(of(string), None, "{string}");
        }
    }

    #[test]
    fn floats() {
        for string in ["0", "-0", "007.50", "123456789012345678", "-12345678901234567.8"] {
            assert!(Number::Float.holds(string.as_bytes()), "{string}");
        }
        for string in
            ["", "-", "1.", ".5", "+1", " 1", "1e3", "7,5", "7.5 m", "1234567890123456789", "0.000000000000000000"]
        {
            assert!(!Number::Float.holds(string.as_bytes()), "{string}");
        }
    }

    /// What the library makes 0 of is no number here, but for zero itself.
    #[test]
    fn as_the_library_makes_floats() {
        let texts =
            ["1", "-7.25", "0.1", "9999999999.5", "123456789012345678", "1234567890123456789", "1.", "x", "7,5", ""];
        for string in texts {
            let mut query = query(&[("x", string)]);
            query.local("Authorizer: \"POLICY\"\nConditions: &x > 0.0 || &x < 0.0;");
            let rank = ask(&query.record().expect("a record")).map(|answer| answer.rank);
            assert_eq!(rank, Ok(u8::from(Number::Float.holds(string.as_bytes()))), "{string}");
        }
    }

    /// What the library makes of a string is what this makes of it, or 0.
    #[test]
    fn as_the_library_converts() {
        let texts = ["0", "-0.0", "12", "-7.25", "2147483647", "2147483648", "-2147483649", "1.5.5", "--1", "x", "3 "];
        for string in texts {
            let number = integer(string.as_bytes()).unwrap_or(0);
            let mut query = query(&[("x", string)]);
            let wanted = if number < 0 { format!("-{}", number.unsigned_abs()) } else { number.to_string() };
            query.local(format!("Authorizer: \"POLICY\"\nConditions: @x == {wanted};"));
            assert_eq!(ask(&query.record().expect("a record")).map(|answer| answer.rank), Ok(1), "{string}");
        }
    }
}
