//! Records to measure time on.

use crate::draft::Draft;
use crate::limits;

/// The most assertions before there were 200 of them; what has so many is measured
/// as it was before.
const FEW: usize = 32;

/// Counts of assertions that double up to the limit.
const DOUBLING: [usize; 4] = [25, 50, 100, 200];

/// Workloads that differ in a size only, by the beginnings of their names.
pub const GROWTH: [&str; 6] = ["assertions ", "text of ", "rounds ", "distinct ", "licences ", "no path of "];

/// Whether a workload is one of several that differ in a size only.
pub fn grows(name: &str) -> bool {
    GROWTH.iter().any(|start| name.starts_with(start))
}

pub struct Workload {
    pub name: String,
    pub record: Vec<u8>,
}

fn workload(name: impl Into<String>, draft: &Draft) -> Workload {
    Workload { name: name.into(), record: draft.record() }
}

pub fn all() -> Vec<Workload> {
    let mut all = vec![
        workload("first ruling", &first_ruling()),
        workload("typical", &typical()),
        workload("spend", &spend()),
        workload("fullest", &fullest(FEW)),
        workload("long literals joined", &joined()),
        workload("lookups of long names", &lookups()),
        workload("integers", &repeated("1+", "1 != 0;")),
        workload("powers", &repeated("46340^2-46340^2 == 0 && ", "true;")),
        workload("float literals", &repeated("1.5<2.5&&", "false;")),
        workload("float literals of 18 digits", &repeated("1.23456789012345678<12345678901234567.8&&", "false;")),
        workload("floats of short texts", &converted("8.75")),
        workload("floats of 18 digits", &converted("12345678901234567.8")),
        workload("floats of no numbers", &converted("8,75 metres")),
        workload("float arithmetic", &repeated("1.5+2.5*0.5-1.25/3.0-", "1.5<0.0;")),
        workload("float powers", &repeated("1.01^64.0<2.0&&", "false;")),
        workload("tests", &repeated("true&&", "true;")),
        workload("clauses", &repeated("false;", "")),
        workload("escapes", &repeated("\"\\101\"==\"\\1\"||", "true;")),
        workload("comments", &repeated("#\n", " true;")),
        workload("wrong at the end", &repeated("true&&", "true")),
        workload("chain of 32", &chain(FEW)),
        workload("dense web", &dense(FEW)),
        workload("no path", &no_path(FEW)),
        workload("chain of 200", &chain(limits::ASSERTIONS.most)),
        workload("dense web of 200", &dense(limits::ASSERTIONS.most)),
        workload("fullest of 200", &fullest(limits::ASSERTIONS.most)),
        workload("names alike at their ends", &alike_at_ends(3)),
        workload("long names alike at their ends", &alike_at_ends(8)),
    ];
    for (name, draft) in references() {
        all.push(workload(format!("by reference: {name}"), &draft));
    }
    for count in DOUBLING {
        all.push(workload(format!("distinct {count}"), &distinct(count)));
    }
    for count in DOUBLING {
        all.push(workload(format!("licences {count}"), &assertions(count)));
    }
    for count in DOUBLING {
        all.push(workload(format!("no path of {count}"), &no_path(count)));
    }
    for count in [1, 2, 4, 8, 16, 32] {
        all.push(workload(format!("assertions {count}"), &assertions(count)));
    }
    for bytes in [256, 512, 1_024, 2_048, 4_096, 8_192] {
        all.push(workload(format!("text of {bytes}"), &text(bytes)));
    }
    for rounds in [2, 4, 8, 16, 32] {
        all.push(workload(format!("rounds {rounds}"), &rounds_of(rounds)));
    }
    for (name, pattern, string) in patterns() {
        all.push(workload(format!("pattern: {name}"), &pattern_test(&pattern, string)));
    }
    for bytes in [40, 256] {
        all.push(workload(format!("keys of {bytes}, other case"), &keys(bytes, other_case)));
        all.push(workload(format!("keys of {bytes}, other end"), &keys(bytes, other_end)));
        all.push(workload(format!("keys of {bytes}, equal"), &keys(bytes, |key, _| key)));
    }
    all
}

pub fn first_ruling() -> Draft {
    Draft::plain().local("Authorizer: \"POLICY\"\nLicensees: \"a\"")
}

/// Eight assertions, twelve attributes, twenty principals.
pub fn typical() -> Draft {
    let mut draft = Draft::default().value("refuse").value("hold").value("immediate").requester("RSA:key19");
    draft = draft.attribute("app_domain", "PORT").attribute("dollars", "4500");
    for index in 0..10 {
        draft = draft.attribute(format!("attribute_{index}"), format!("value {index}"));
    }
    for index in 0..8 {
        let authorizer = if index == 0 { "POLICY".into() } else { format!("RSA:key{index}") };
        let licensees = [index + 1, index + 9, index + 12].map(|key| format!("\"RSA:key{key}\"")).join(" || ");
        let text = format!(
            "KeyNote-Version: 2
Comment: delegation {index}
Local-Constants: port = \"PORT\"
Authorizer: \"{authorizer}\"
Licensees: {licensees}
Conditions: app_domain == port && attribute_{index} == \"value {index}\" -> {{
    @dollars < 5000 && attribute_{} != \"\" -> _MAX_TRUST;
    @dollars < 50000 -> \"hold\";
  }};
Signature: \"RSA-SHA1:00{index}\"
",
            index + 1
        );
        draft = draft.assertion(if index == 0 { 1 } else { 2 }, text);
    }
    draft
}

/// The RFC's spending policy, credential H corrected.
pub fn spend() -> Draft {
    const MANAGERS: [&str; 5] = ["RSA:abc123", "DSA:bcd987", "DSA:cde333", "DSA:def975", "DSA:978add"];
    let list = |joint: &str| MANAGERS.map(|key| format!("\"{key}\"")).join(joint);
    let e = "Authorizer: \"POLICY\"\nLicensees: \"RSA:dab212\" # the CFO's key
Conditions: (app_domain==\"SPEND\") && (@dollars < 10000);\n";
    let f = format!(
        "KeyNote-Version: 2\nComment: This credential specifies a spending policy
Authorizer: \"RSA:dab212\"\nLicensees: \"DSA:feed1234\" && ({})
Conditions: (app_domain==\"SPEND\") -> {{ (@(dollars) < 2500) -> _MAX_TRUST;
  (@(dollars) < 7500) -> \"ApproveAndLog\"; }};\nSignature: \"RSA-SHA1:9867a1\"\n",
        list(" || ")
    );
    let g = format!(
        "KeyNote-Version: 2\nAuthorizer: \"POLICY\"\nLicensees: 2-of(\"DSA:feed1234\", {})
Conditions: (app_domain==\"SPEND\") && (@(dollars) < 1000);\n",
        list(", ")
    );
    let h = format!(
        "KeyNote-Version: 2\nAuthorizer: \"RSA:dab212\"\nLicensees: \"DSA:feed1234\" || {}
Conditions: (app_domain==\"SPEND\") -> {{ (@(dollars) < 100) -> _MAX_TRUST;
  (@(dollars) < 500) -> \"ApproveAndLog\"; }};\nSignature: \"RSA-SHA1:186123\"\n",
        list(" || ")
    );
    let values = Draft::default().value("Reject").value("ApproveAndLog").value("Approve");
    let asked = values.requester("DSA:feed1234").requester("DSA:cde333");
    let asked = asked.attribute("app_domain", "SPEND").attribute("dollars", "5500");
    asked.local(e).assertion(2, f).local(g).assertion(2, h)
}

/// So many assertions with sixteen long licensees each, 65,535 bytes in all.
pub fn fullest(count: usize) -> Draft {
    let mut draft = Draft::plain();
    let share = (limits::RECORD_BYTES - draft.record().len()) / count - 3;
    let width = (share - 108) / (limits::LICENSEES + 1);
    for index in 0..count {
        let mut text = delegation(index, &|number| format!("{number:k>width$}"));
        text.push('#');
        let left = limits::RECORD_BYTES - draft.record().len() - 3;
        let length = if index + 1 == count { left } else { share };
        text.extend(std::iter::repeat_n('x', length.saturating_sub(text.len())));
        draft = draft.local(text);
    }
    draft
}

/// An assertion of a tree from POLICY, number 0: it has sixteen licensees of its
/// own, and each principal is licensed once.
fn delegation(index: usize, name: &dyn Fn(usize) -> String) -> String {
    let quoted = |number: usize| match number {
        0 => "\"POLICY\"".to_string(),
        _ => format!("\"{}\"", name(number)),
    };
    let listed = (1..=limits::LICENSEES).map(|step| quoted(index * limits::LICENSEES + step));
    format!("Authorizer:{}\nLicensees:{}\n", quoted(index), listed.collect::<Vec<_>>().join("||"))
}

/// So many assertions with sixteen licensees of their own, all in the reach. The
/// requester is one of POLICY's, so that there are two rounds however many.
pub fn distinct(count: usize) -> Draft {
    let name = |number: usize| format!("key {number}");
    let asked = Draft::default().value("hold").value("immediate").requester(name(1));
    (0..count).fold(asked, |draft, index| draft.local(delegation(index, &name)))
}

/// 3,200 names of one length that differ only in front of their last three bytes,
/// with so many bytes before that.
pub fn alike_at_ends(width: usize) -> Draft {
    const DIGITS: &[u8] = b"0123456789ABCDEFGHIJKLMNOPQRSTUVWXYZ";
    let digit = |number: usize, place: u32| char::from(DIGITS[number / DIGITS.len().pow(place) % DIGITS.len()]);
    // Lowest digit first.
    let name = |number: usize| (0..width as u32).map(|place| digit(number, place)).chain("end".chars()).collect();
    let asked = Draft::default().value("hold").value("immediate").requester(name(1));
    (0..limits::ASSERTIONS.most).fold(asked, |draft, index| draft.local(delegation(index, &name)))
}

/// 200 assertions of 16 licensees, all of them by reference. The requester is
/// licensed by POLICY.
fn references() -> Vec<(&'static str, Draft)> {
    let name = |number: usize| format!("n{}", number % 16);
    let named = |prefix: usize| {
        let asked = Draft::default().value("hold").value("immediate");
        let key = |number: usize| format!("{}{number:02}", "k".repeat(prefix));
        let asked = asked.requester(key(1)).attribute("p", "POLICY").attribute("r", "p");
        let each = |draft: Draft, number| draft.attribute(name(number), key(number));
        (0..16).fold(asked, each)
    };
    let twice =
        |prefix| (0..12).fold(named(prefix), |draft, number| draft.attribute(format!("r{number}"), name(number)));
    let joined = |prefix: usize| {
        let front = "k".repeat(prefix);
        let asked = Draft::default().value("hold").value("immediate").requester(format!("{front:.252}0001"));
        asked.attribute("p", "POLICY").attribute("k", front)
    };
    let join = |number: usize| format!("k.\"{number:04}\"");
    let bracketed = |number: usize| format!("((k).(\"{number:04}\"))");
    let dereference = |number: usize| format!("$r{}", number % 12);
    let literal = |number: usize| format!("$\"n{}\"", number % 16);
    vec![
        ("names", referring(named(4), "p", &name)),
        ("names of 256 bytes", referring(named(254), "p", &name)),
        ("\"$\" of a literal", referring(named(4), "$\"p\"", &literal)),
        ("\"$\" of a name", referring(twice(4), "$r", &dereference)),
        ("joined, 3,200 keys", referring(joined(4), "p", &join)),
        ("joined, 3,200 keys of 256 bytes", referring(joined(252), "p", &join)),
        ("joined in brackets", referring(joined(4), "((\"POL\").(\"ICY\"))", &bracketed)),
        ("error in every one", referring(joined(300), "p", &join)),
    ]
}

/// 200 assertions in which each principal, by its number, licenses sixteen.
fn referring(asked: Draft, root: &str, refer: &dyn Fn(usize) -> String) -> Draft {
    let text = |index: usize| {
        let most = limits::LICENSEES;
        let authorizer = if index == 0 { root.to_string() } else { refer(index) };
        let listed: Vec<String> = (index * most + 1..=(index + 1) * most).map(refer).collect();
        format!("Authorizer: {authorizer}\nLicensees: {}\n", listed.join("||"))
    };
    (0..limits::ASSERTIONS.most).fold(asked, |draft, index| draft.local(text(index)))
}

/// As many assertions of full length as fit, with the part repeated in
/// Conditions as often as fits.
fn repeated(part: &str, ending: &str) -> Draft {
    let head = "Authorizer: \"POLICY\"\nLicensees: \"b\"\nConditions: ";
    let count = (limits::TEXT_BYTES.most - head.len() - ending.len()) / part.len();
    let text = format!("{head}{}{ending}", part.repeat(count));
    (0..7).fold(Draft::plain(), |draft, _| draft.local(&text))
}

/// Many conversions of one text to a float.
fn converted(text: &str) -> Draft {
    repeated("&x>-1.5&&", "false;").attribute("x", text)
}

/// Strings of nearly 4,096 bytes, joined and compared to their ends.
fn joined() -> Draft {
    let draft = repeated("v.v==v.v&&", "false;");
    let room = limits::RECORD_BYTES - draft.record().len() - 5;
    draft.attribute("v", vec![b'v'; room.min(limits::ATTRIBUTE_BYTES.most)])
}

/// Many names that share a long beginning, looked up by "$".
fn lookups() -> Draft {
    let long = |index: usize| format!("{}{index:02}", "n".repeat(898));
    let head = "Authorizer: \"POLICY\"\nConditions: ";
    let test = "$(p.\"31\")==\"\"&&";
    let count = (limits::TEXT_BYTES.most - head.len() - 6) / test.len();
    let text = format!("{head}{}false;", test.repeat(count));
    let named = (0..31).fold(Draft::plain(), |draft, index| draft.attribute(long(index), ""));
    let named = named.attribute("p", "n".repeat(898));
    (0..4).fold(named, |draft, _| draft.local(&text))
}

/// POLICY licenses the first of a chain whose last is the requester.
pub fn chain(length: usize) -> Draft {
    let name = |index: usize| match index {
        0 => "POLICY".to_string(),
        _ if index == length => "a".into(),
        _ => format!("principal {index}"),
    };
    let link = |index| format!("Authorizer: \"{}\"\nLicensees: \"{}\"\n", name(index), name(index + 1));
    // The last link first: rounds, not order, carry ranks along.
    (0..length).fold(Draft::plain(), |draft, index| draft.local(link(index)))
}

/// Every principal licenses sixteen others, by thresholds.
pub fn dense(count: usize) -> Draft {
    let name = |index: usize| if index == 0 { "POLICY".to_string() } else { format!("principal {index}") };
    let mut draft = Draft::default().requester(name(count - 1)).requester(name(count - 2)).requester(name(count - 3));
    for value in 0..limits::VALUES.most {
        draft = draft.value(format!("value {value}"));
    }
    for index in 0..count {
        let listed = (1..=limits::LICENSEES).map(|step| format!("\"{}\"", name((index + step) % count)));
        let listed = listed.collect::<Vec<_>>().join(",");
        let value = limits::VALUES.most - 1 - index % 3;
        let text = format!(
            "Authorizer: \"{}\"\nLicensees: 3-of({listed})\nConditions: true -> \"value {value}\";\n",
            name(index)
        );
        draft = draft.local(text);
    }
    draft
}

/// A web that the requester isn't in.
pub fn no_path(count: usize) -> Draft {
    let mut draft = dense(count);
    draft.requesters = vec![b"stranger".to_vec()];
    draft
}

/// A short assertion many times.
pub fn assertions(count: usize) -> Draft {
    let text = |index| {
        format!("Authorizer: \"POLICY\"\nLicensees: \"b{index}\" || \"a\"\nConditions: x == \"1\" && @y < 10;\n")
    };
    let asked = Draft::plain().attribute("x", "1").attribute("y", "9");
    (0..count).fold(asked, |draft, index| draft.local(text(index)))
}

/// One assertion of a length.
pub fn text(bytes: usize) -> Draft {
    let head = "Authorizer: \"POLICY\"\nConditions: ";
    let clause = "x == \"2\" && (@y + 3) * 2 < 10 -> \"hold\";\n ";
    let count = (bytes - head.len() - 8) / clause.len();
    let mut text = format!("{head}{}true;\n#", clause.repeat(count));
    text.extend(std::iter::repeat_n('x', bytes - text.len()));
    Draft::plain().attribute("x", "1").attribute("y", "9").local(text)
}

/// 32 assertions whose ranks settle after about so many rounds.
pub fn rounds_of(rounds: usize) -> Draft {
    let mut draft = chain(rounds);
    for index in rounds..FEW {
        draft = draft.local(format!("Authorizer: \"POLICY\"\nLicensees: \"other {index}\"\n"));
    }
    draft
}

/// Patterns, and of what a string of 4,096 bytes consists.
fn patterns() -> [(&'static str, String, &'static str); 9] {
    [
        ("a byte", "z".into(), "a"),
        ("literal", "keynote research".into(), "keynote "),
        ("anchored", "^keynote".into(), "keynote "),
        ("address", r"^.*@keynote\\.research\\.att\\.com$".into(), "mab@keynote."),
        ("branches", "(pilot|tug|berth|mooring|anchorage|quay)[0-9]".into(), "anchorage tug "),
        ("sets", "[0-9A-F]+:[^a-z]*[x-z]".into(), "0A:B9 "),
        ("stars", "(a*b*)*c".into(), "aab"),
        ("stars in stars", "((a*)*(b*)*)*c".into(), "aab"),
        // 256 bytes, with two ways to go on at 127 places.
        ("worst", "a?".repeat(127) + "bb", "a"),
    ]
}

/// One test of a pattern on 4,096 bytes.
pub fn pattern_test(pattern: &str, part: &str) -> Draft {
    let half: String = part.chars().cycle().take(limits::ATTRIBUTE_BYTES.most).collect();
    let text = format!("Authorizer: \"POLICY\"\nConditions: x . x ~= \"{pattern}\";\n");
    Draft::plain().attribute("x", half).local(text)
}

/// Long hexadecimal keys, sixteen to an assertion, as many assertions as fit.
/// `spell` gives the key that is mentioned so many mentions later.
pub fn keys(bytes: usize, spell: fn(String, usize) -> String) -> Draft {
    let digits = "0123456789abcdef".chars().cycle();
    let key: String = "dsa-hex:".chars().chain(digits).take(bytes).collect();
    let mut draft = Draft::default().value("hold").value("immediate").requester(spell(key.clone(), 1));
    for index in 0..FEW {
        let first = index * (limits::LICENSEES + 1);
        let authorizer = if index == 0 { "POLICY".into() } else { spell(key.clone(), first) };
        let listed = (1..=limits::LICENSEES).map(|step| format!("\"{}\"", spell(key.clone(), first + step)));
        let licensees = listed.collect::<Vec<_>>().join("||");
        let next = draft.clone().local(format!("Authorizer: \"{authorizer}\"\nLicensees: {licensees}\n"));
        if next.record().len() > limits::RECORD_BYTES {
            break;
        }
        draft = next;
    }
    draft
}

/// A spelling for each number: its bits say which letters are capitals.
fn other_case(key: String, number: usize) -> String {
    let mut letters = 0;
    let respell = |letter: char| {
        letters += usize::from(letter.is_ascii_alphabetic());
        let capital = number >> (letters % 10) & 1 == 1;
        if capital {
            letter.to_ascii_uppercase()
        } else {
            letter
        }
    };
    key.chars().map(respell).collect()
}

/// Sixty-four different keys, alike but for the last byte.
fn other_end(mut key: String, number: usize) -> String {
    let fine = |end: &char| !end.is_ascii_uppercase() && !matches!(end, '"' | '\\');
    let ends: Vec<char> = ('!'..='~').filter(fine).take(64).collect();
    key.pop();
    key.push(ends[number % ends.len()]);
    key
}
