//! Limits of texts and of evaluation, met or passed by one.

use super::float;
use super::reference;
use crate::draft::Draft;
use crate::limits;
use crate::random::Random;

const POLICY: &str = "Authorizer: \"POLICY\"\n";

pub fn record(random: &mut Random) -> Vec<u8> {
    if random.once_in(4) {
        return by_reference(random);
    }
    let text = text(random);
    // Most texts speak for POLICY, which a credential may not.
    let standing = if random.once_in(5) { 2 } else { 1 };
    let draft = Draft::plain().attribute("x", "1").attribute("v", vec![b'v'; limits::ATTRIBUTE_BYTES.most]);
    if random.once_in(40) {
        return full(random, draft);
    }
    let draft = draft.assertion(standing, text);
    // A licence without conditions hides the rank that the text gives.
    let hidden = random.once_in(6);
    if hidden { draft.local(POLICY) } else { draft }.record()
}

/// A text whose principals are expressions, beside another that may need it.
fn by_reference(random: &mut Random) -> Vec<u8> {
    let standing = if random.once_in(2) { 2 } else { 1 };
    let mut draft = Draft::plain();
    // A value that names POLICY.
    if random.once_in(4) {
        draft.values[0] = b"POLICY".to_vec();
    }
    let draft = draft.attribute("p", "POLICY").attribute("k", "a").attribute("n", "k");
    let draft = draft.attribute("h", "h".repeat(128)).attribute("e", "").attribute("unread", "u");
    let draft = draft.attribute("v", vec![b'v'; limits::ATTRIBUTE_BYTES.most]);
    let draft = draft.assertion(standing, reference::edge(random));
    if random.once_in(6) { draft.local(POLICY) } else { draft }.record()
}

/// At a limit, one below or one above.
fn near(random: &mut Random, limit: usize) -> usize {
    limit + random.below(3) - 1
}

fn text(random: &mut Random) -> String {
    match random.below(23) {
        0 => {
            let count = near(random, limits::CONSTANTS);
            let mut names: Vec<String> = (0..count).map(|index| format!("c{index}=\"{index}\"")).collect();
            // The last may have another fault as well.
            if random.once_in(3) {
                names[count - 1] = random.pick(&["c0=\"\"", "_c=\"\"", "true=\"\""]).to_string();
            }
            format!("Local-Constants: {}\n{POLICY}", names.join(" "))
        }
        1 => {
            let count = near(random, limits::LICENSEES);
            let operator = *random.pick(&[" && ", "||", "\n || "]);
            let mut names = vec!["\"a\""; count];
            if random.once_in(3) {
                names[count - 1] = *random.pick(&["unset", "\"\"", "true"]);
            }
            format!("{POLICY}Licensees: {}", names.join(operator))
        }
        2 => {
            let listed = near(random, limits::LICENSEES);
            let k = *random.pick(&[0, 1, listed - 1, listed, listed + 1, 16, 17]);
            format!("{POLICY}Licensees: {k}-of({})", vec!["\"a\""; listed].join(","))
        }
        3 => {
            let depth = near(random, limits::BRACKETS);
            let inner = *random.pick(&["\"a\"", "1-of(\"a\")", "x"]);
            format!("{POLICY}Licensees: {}{inner}{}", "(".repeat(depth), ")".repeat(depth))
        }
        4 => {
            let depth = near(random, limits::BRACKETS);
            let curly = random.below(depth + 1);
            let round = depth - curly;
            let inner = format!("{}true{};", "(".repeat(round), ")".repeat(round));
            format!("{POLICY}Conditions: {}{inner}{}", "true->{".repeat(curly), "};".repeat(curly))
        }
        5 => {
            let count = near(random, limits::PREFIXES);
            let nots = random.below(count + 1);
            let rest = count - nots;
            let tail = match random.below(4) {
                0 => format!("{}1 != 0", "-".repeat(rest)),
                1 => format!("{}x == \"\"", "$".repeat(rest)),
                2 if rest > 0 => format!("{}@x == 1", "- ".repeat(rest - 1)),
                _ if rest > 0 => format!("{}&x < 1.0", "-".repeat(rest - 1)),
                _ => "true".into(),
            };
            format!("{POLICY}Conditions: {}{tail};", "!".repeat(nots))
        }
        6 => {
            let literal = long_literal(random, limits::LITERAL_BYTES);
            let place = *random.pick(&[
                "Conditions: x != L;",
                "Signature: L",
                "Local-Constants: c=L",
                "Conditions: true -> L;",
            ]);
            format!("{POLICY}{}", place.replace('L', &literal))
        }
        7 => {
            let literal = long_literal(random, limits::PRINCIPAL_BYTES.most);
            let text = *random.pick(&[
                "Authorizer: \"POLICY\"\nLicensees: \"a\" || L",
                "Authorizer: L",
                "Local-Constants: c=L\nAuthorizer: c",
                "Local-Constants: c=L\nAuthorizer: \"POLICY\"\nLicensees: c",
            ]);
            text.replace('L', &literal)
        }
        8 => {
            let number =
                *random.pick(&["2147483647", "2147483648", "0002147483647", "4294967296", "99999999999999999999"]);
            let text = *random.pick(&["Conditions: N > 0;", "Conditions: -N < 0;", "Licensees: N-of(\"a\")"]);
            format!("{POLICY}{}", text.replace('N', number))
        }
        9 => {
            let joins = random.between(1, 3);
            let last = *random.pick(&["\"\"", "\"w\"", "x"]);
            let string = format!("{}{last}", "v . ".repeat(joins));
            let test = *random.pick(&[
                "S != \"\"",
                "$(S) == \"\"",
                "@(S) == 0",
                "!(S == \"\")",
                "v . (S) != \"\"",
                "(S) >= v . v",
            ]);
            format!("{POLICY}Conditions: {};", test.replace('S', &string))
        }
        10 => {
            let test = *random.pick(&[
                "2147483647 + 1 > 0",
                "-2147483647 - 1 < 0",
                "-2147483647 - 2 < 0",
                "46341 * 46341 > 0",
                "46340 * 46340 > 0",
                "1 / 0 == 0 || true",
                "1 % 0 == 0",
                "0 ^ 0 == 1",
                "2 ^ 30 > 0",
                "2 ^ 31 > 0",
                "(-2) ^ 31 < 0",
                "(-2) ^ 32 > 0",
                "3 ^ 19 > 0",
                "3 ^ 20 > 0",
                "1 ^ -1 == 1",
                "(-1) ^ 2147483647 == -1",
                "@\"-2147483648\" / -1 != 0",
                "@\"-2147483648\" % -1 == 0",
                "-(@\"-2147483648\") != 0",
            ]);
            format!("{POLICY}Conditions: {test};")
        }
        11 => {
            let mut text = format!("{POLICY}Conditions: true;\n#");
            let length = near(random, limits::TEXT_BYTES.most);
            text.push_str(&"x".repeat(length - text.len()));
            text
        }
        12 => {
            // As many operators as fit.
            let part = *random.pick(&["true&&", "true||", "1==1&&", "x.", "x==\"\"||", "!true||"]);
            let ending = if part == "x." { "x!=\"\";" } else { "true;" };
            let count = (limits::TEXT_BYTES.most - POLICY.len() - 12 - ending.len()) / part.len();
            format!("{POLICY}Conditions: {}{ending}", part.repeat(count))
        }
        13 => {
            let part = *random.pick(&["1+", "1-", "1*", "2^", "7%", "9/"]);
            let count = random.between(1, 2_000);
            format!("{POLICY}Conditions: {}1 != 0;", part.repeat(count))
        }
        14 => {
            let count = random.between(1, 1_000);
            format!("{POLICY}Conditions: {}", "false;".repeat(count) + *random.pick(&["", "true;", "true"]))
        }
        15 => {
            let name = "n".repeat(random.between(2_047, 2_049));
            format!("Local-Constants: {name}=\"a\"\n{POLICY}Licensees: {name}\nConditions: ${} == {name};", "\"x\"")
        }
        16 => {
            let test = *random.pick(&[
                "x ~= \"^a\"",
                "1.5 < 2.5",
                "&x < 1.0",
                "!(&x >= -1.5)",
                "1 < 1.5",
                "1.5 == 1.5",
                "(x) ~= y",
                "x == 1.5",
                "true && &x > &y",
                "@x < &y",
                "-&x < 1.5 + 2.5 ^ 2.0",
                "1.5 % 2.0 < 1.0",
                "$x ~= x",
                "1 ~= x",
                "@&x < 1",
                "x == \"\" -> &x",
                "(1.5) < 1.5 || true ~= x",
                "true -> 1.5",
                "1.5 . x == x",
                "\"1\".5 == x",
                "1.x == x",
                "1. == 1",
                "1 . 5 < 2",
                "1.5.5 < 2.5",
                ".5 < 1",
                "x.1.5 == x",
                "1..5 < 2",
            ]);
            format!("{POLICY}Conditions: {test};")
        }
        17 => format!("{POLICY}{}", float::digits(random)),
        18 => float::in_field(random),
        19 => format!("{POLICY}Conditions: {};", float::mixed(random)),
        20 => format!("{POLICY}Conditions: {};", float::end(random)),
        21 => {
            let literal = *random.pick(&["\"POLICY\"", "\"\\120OLICY\"", "p", "q", "\"policy\""]);
            format!("Local-Constants: p=\"POLICY\" _q=\"POLICY\"\nAuthorizer: {literal}")
                .replace(" _q", *random.pick(&[" q", " _q", " p", " P"]))
        }
        _ => {
            let value = *random.pick(&["2", "3", "\"2\"", "\"3\"", "2.0", "2147483648", "", "2 2", "x"]);
            format!("KeyNote-Version: {value}\n{POLICY}")
        }
    }
}

/// A literal whose value is near a limit, plain or escaped.
fn long_literal(random: &mut Random, limit: usize) -> String {
    let length = near(random, limit);
    let part = *random.pick(&["l", "\\n", "\\101", "\\l"]);
    format!("\"{}\"", part.repeat(length.min(8_000 / part.len())))
}

/// A record of 65,535 bytes, or one more or less.
fn full(random: &mut Random, mut draft: Draft) -> Vec<u8> {
    let wanted = near(random, limits::RECORD_BYTES);
    let padded = |length: usize| {
        let mut text = format!("{POLICY}#").into_bytes();
        text.resize(length, b'x');
        text
    };
    loop {
        let left = wanted - draft.record().len() - 3;
        if left <= limits::TEXT_BYTES.most {
            return draft.local(padded(left)).record();
        }
        draft = draft.local(padded(limits::TEXT_BYTES.most.min(left - 100)));
    }
}
