//! The rulings of the scope, and the RFC's examples, as records with the
//! outcomes given there.

use second::draft::Draft;

/// What a ruling says of a record.
#[derive(Clone, Copy, Debug, PartialEq, Eq)]
pub enum Ruled {
    Rank(u8),
    /// Rank, rounds, reached.
    Solved(u8, usize, usize),
    /// Reason and place of the first assertion.
    Entry(u8, usize),
    /// Number and place.
    Refused(u8, usize),
}

pub struct Ruling {
    pub name: String,
    pub record: Vec<u8>,
    pub ruled: Ruled,
}

const POLICY: &str = "Authorizer: \"POLICY\"\n";

pub fn all() -> Vec<Ruling> {
    let groups = [solutions, thresholds, conditions, faults, limits, misreadings, spend, email];
    groups.into_iter().flat_map(|group: fn() -> Vec<Ruling>| group()).collect()
}

fn ruling(name: impl Into<String>, draft: &Draft, ruled: Ruled) -> Ruling {
    Ruling { name: name.into(), record: draft.record(), ruled }
}

fn licence(authorizer: &str, licensees: &str) -> String {
    format!("Authorizer: \"{authorizer}\"\nLicensees: {licensees}")
}

fn asked_by(requesters: &[&str]) -> Draft {
    let draft = Draft::default().value("hold").value("immediate");
    requesters.iter().fold(draft, |draft, requester| draft.requester(requester))
}

fn solutions() -> Vec<Ruling> {
    let web = |requester| {
        let draft = asked_by(&[requester]).local(licence("POLICY", "\"a\""));
        draft.local(licence("a", "\"b\"")).local(licence("b", "\"a\""))
    };
    vec![
        ruling("first", &Draft::plain().local(licence("POLICY", "\"a\"")), Ruled::Solved(1, 2, 2)),
        ruling("loop, requester c", &web("c"), Ruled::Solved(0, 0, 3)),
        ruling("loop, requester b", &web("b"), Ruled::Solved(1, 3, 3)),
        ruling("no assertions", &Draft::plain(), Ruled::Solved(0, 0, 1)),
    ]
}

fn thresholds() -> Vec<Ruling> {
    let draft = |requesters: &[&str], licensees| asked_by(requesters).local(licence("POLICY", licensees));
    let mut ranks = Draft::default().value("0").value("1").value("2").value("3").requester("r");
    for (name, value) in [("p", "0"), ("q", "1"), ("s", "2"), ("t", "2"), ("u", "3")] {
        ranks = ranks.local(format!("Authorizer: \"{name}\"\nLicensees: \"r\"\nConditions: true -> \"{value}\";"));
    }
    ranks = ranks.local(licence("POLICY", "3-of(\"p\",\"q\",\"s\",\"t\",\"u\")"));
    vec![
        ruling("2-of", &draft(&["a", "c"], "2-of(\"a\",\"b\",\"c\")"), Ruled::Rank(1)),
        ruling("3-of", &draft(&["a", "c"], "3-of(\"a\",\"b\",\"c\")"), Ruled::Rank(0)),
        ruling("twice in 2-of", &draft(&["a"], "2-of(\"a\",\"a\")"), Ruled::Rank(1)),
        ruling("third of five ranks", &ranks, Ruled::Rank(2)),
    ]
}

fn conditions() -> Vec<Ruling> {
    let tests = [
        ("1/0 == 1 || true", 0),
        ("!(1/0 == 1)", 0),
        ("true || 1/0 == 1", 1),
        ("-2^2 == 4", 1),
        ("2^3^2 == 64", 1),
        ("-7/2 == -3", 1),
        ("@\"-1.5\" == -2", 1),
        ("@\"1e3\" == 0", 1),
        ("@\"2147483648\" == 0", 1),
    ];
    let of = |(test, rank): (&str, u8)| {
        ruling(test, &Draft::plain().local(format!("{POLICY}Conditions: {test};")), Ruled::Rank(rank))
    };
    tests.into_iter().map(of).collect()
}

fn faults() -> Vec<Ruling> {
    vec![
        ruling("no Authorizer", &Draft::plain().local("Licensees: \"a\""), Ruled::Entry(3, 14)),
        ruling("cut", &Draft::plain().local(format!("{POLICY}Licensees: \"a\" &&")), Ruled::Entry(2, 38)),
    ]
}

fn limits() -> Vec<Ruling> {
    let listed = |count| Draft::plain().local(licence("POLICY", &vec!["\"a\""; count].join("||")));
    let many = |count| (0..count).fold(Draft::plain(), |draft, _| draft.local(POLICY));
    let long = |count: usize| Draft::plain().local(format!("{POLICY}#{}", "x".repeat(count - 22)));
    vec![
        ruling("16 licensees", &listed(16), Ruled::Entry(0, 0)),
        ruling("17 licensees", &listed(17), Ruled::Entry(7, 32 + 16 * 5)),
        ruling("200 assertions", &many(200), Ruled::Solved(1, 1, 1)),
        ruling("201 assertions", &many(201), Ruled::Refused(4, 24)),
        ruling("255 assertions", &many(255), Ruled::Refused(4, 24)),
        ruling("3,201 principals", &second::workload::distinct(200), Ruled::Solved(1, 2, 3_201)),
        ruling("201 rounds", &second::workload::chain(200), Ruled::Solved(1, 201, 201)),
        ruling("text of 8,192", &long(8_192), Ruled::Solved(1, 1, 1)),
        ruling("text of 8,193", &long(8_193), Ruled::Refused(5, 26)),
    ]
}

fn misreadings() -> Vec<Ruling> {
    let apart = Draft::plain().local(POLICY).local(licence("x", "\"y\"")).local(licence("y", "\"a\""));
    vec![
        ruling("empty Licensees", &Draft::plain().local(format!("{POLICY}Licensees:")), Ruled::Rank(0)),
        ruling("missing Licensees", &Draft::plain().local(POLICY), Ruled::Rank(1)),
        ruling("rounds of unreached principals", &apart, Ruled::Solved(1, 1, 1)),
    ]
}

/// Section 6's spending policy with credential H corrected, and the RFC's answers.
fn spend() -> Vec<Ruling> {
    let cases: [(&[&str], &str, u8); 6] = [
        (&["DSA:978add"], "45", 2),
        (&["RSA:abc123", "DSA:cde333"], "550", 2),
        (&["DSA:feed1234", "DSA:cde333"], "5500", 1),
        (&["DSA:cde333"], "150", 1),
        (&["DSA:def975"], "550", 0),
        (&["DSA:cde333", "DSA:978add"], "5500", 0),
    ];
    let of = |(requesters, dollars, rank): (&[&str], &str, u8)| {
        let mut draft = second::workload::spend();
        draft.requesters = requesters.iter().map(|requester| requester.as_bytes().to_vec()).collect();
        draft.attributes[1].1 = dollars.into();
        ruling(format!("spend {dollars} by {requesters:?}"), &draft, Ruled::Rank(rank))
    };
    cases.into_iter().map(of).collect()
}

/// Section 6's e-mail policy with a plain test for the pattern, and with a pattern.
fn email() -> Vec<Ruling> {
    let a = "Authorizer: \"POLICY\"\nLicensees: \"RSA:abc123\"\n";
    let c = "KeyNote-Version: 2\nAuthorizer: \"DSA:4401ff92\"\nLicensees: \"DSA:12340987\"
Conditions: ((app_domain == \"RFC822-EMAIL\") &&\n (name == \"M. Blaze\" || name == \"\") &&
 (address == \"mab@keynote.research.att.com\"));\nSignature: \"DSA-SHA1:ab23487\"\n";
    let b = |test: &str| {
        format!(
            "Local-Constants: Alice=\"DSA:4401ff92\" Bob=\"RSA:d1234f\"\nAuthorizer: \"RSA:abc123\"
Licensees: Alice || Bob\nConditions: (app_domain == \"RFC822-EMAIL\") && ({test});\n"
        )
    };
    let asked_by = |requester: &str, test: &str, address: &str| {
        let asked = Draft::default().value("no").value("yes").requester(requester);
        let asked = asked.attribute("app_domain", "RFC822-EMAIL").attribute("address", address);
        asked.assertion(2, b(test)).local(a).assertion(2, c)
    };
    let draft = |test: &str, address: &str| asked_by("DSA:12340987", test, address);
    // The RFC asks with keys in small letters.
    let small = |key: &str| asked_by(key, "address > \"m\"", "mab@keynote.research.att.com");
    let pattern = r#"address ~= "^.*@keynote\\.research\\.att\\.com$""#;
    let anywhere = r#"address ~= "^.*@keynote\.research""#;
    let mab = "mab@keynote.research.att.com";
    vec![
        ruling("e-mail", &draft("address > \"m\"", "mab@keynote.research.att.com"), Ruled::Solved(1, 4, 5)),
        ruling("e-mail, small letters", &small("dsa:12340987"), Ruled::Solved(1, 4, 5)),
        ruling("e-mail, another key", &small("dsa:12340988"), Ruled::Rank(0)),
        ruling("e-mail of another", &draft("address > \"m\"", "angelos@dsl.cis.upenn.edu"), Ruled::Rank(0)),
        ruling("e-mail by pattern", &draft(pattern, mab), Ruled::Solved(1, 4, 5)),
        ruling("e-mail by pattern, another's", &asked_by("DSA:4401ff92", pattern, "mab@att.com"), Ruled::Rank(0)),
        ruling(
            "e-mail by pattern, no dot",
            &asked_by("DSA:4401ff92", pattern, "a@keynoteXresearch.att.com"),
            Ruled::Rank(0),
        ),
        ruling(
            "e-mail by pattern, any byte",
            &asked_by("DSA:4401ff92", anywhere, "a@keynoteXresearch"),
            Ruled::Rank(1),
        ),
        ruling("e-mail by no pattern", &draft("address ~= \"(\"", mab), Ruled::Rank(0)),
    ]
}
