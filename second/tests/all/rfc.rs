//! The examples of RFC 2704, section 6, with the answers the RFC gives.

use second::draft::Draft;
use second::print::PAGE;
use second::{answer, Outcome};

const A: &str = "Authorizer: \"POLICY\"\nLicensees: \"RSA:abc123\"\n";

const B: &str = r#"KeyNote-Version: 2
Local-Constants: Alice="DSA:4401ff92"  # Alice's key
                 Bob="RSA:d1234f"      # Bob's key
Authorizer: "RSA:abc123"
Licensees: Alice || Bob
Conditions: (app_domain == "RFC822-EMAIL") &&
            (address ~=   # only applies to one domain
              "^.*@keynote\\.research\\.att\\.com$");
Signature: "RSA-SHA1:213354f9"
"#;

const C: &str = r#"KeyNote-Version: 2
Authorizer: "DSA:4401ff92"  # the Alice CA
Licensees: "DSA:12340987"   # mab's key
Conditions: ((app_domain == "RFC822-EMAIL") &&
             (name == "M. Blaze" || name == "") &&
             (address == "mab@keynote.research.att.com"));
Signature: "DSA-SHA1:ab23487"
"#;

const D: &str = r#"KeyNote-Version: "2"
Authorizer: "DSA:4401ff92"   # the Alice CA
Licensees: "DSA:abc991" ||   # jf's DSA key
           "RSA:cde773" ||   # jf's RSA key
           "BFIK:fd091a"     # jf's BFIK key
Conditions: ((app_domain == "RFC822-EMAIL") &&
             (name == "J. Feigenbaum" || name == "") &&
             (address == "jf@keynote.research.att.com"));
Signature: "DSA-SHA1:8912aa"
"#;

const E: &str = r#"Authorizer: "POLICY"
Licensees: "RSA:dab212" # the CFO's key
Conditions: (app_domain=="SPEND") && (@dollars < 10000);
"#;

const F: &str = r#"KeyNote-Version: 2
Comment: This credential specifies a spending policy
Authorizer: "RSA:dab212"        # the CFO
Licensees: "DSA:feed1234" &&    # The vice president
               ("RSA:abc123" || # middle manager #1
                "DSA:bcd987" || # middle manager #2
                "DSA:cde333" || # middle manager #3
                "DSA:def975" || # middle manager #4
                "DSA:978add")   # middle manager #5
Conditions: (app_domain=="SPEND")  # note nested clauses
              -> { (@(dollars) < 2500)
                       -> _MAX_TRUST;
                   (@(dollars) < 7500)
                       -> "ApproveAndLog";
                 };
Signature: "RSA-SHA1:9867a1"
"#;

const G: &str = r#"KeyNote-Version: 2
Authorizer: "POLICY"
Licensees: 2-of("DSA:feed1234", # The VP
                "RSA:abc123",   # Middle management clones
                "DSA:bcd987",
                "DSA:cde333",
                "DSA:def975",
                "DSA:978add")
Conditions: (app_domain=="SPEND") &&
            (@(dollars) < 1000);
"#;

const H: &str = r#"KeyNote-Version: 2
Comment: This one credential is equivalent to six separate
         credentials, one for each VP and middle manager.
         Individually, they can spend up to $500, but if
         it's $100 or more, we log it.
Authorizer: "RSA:dab212"      # From the CFO
Licensees: "DSA:feed1234" ||  # The VP
           "RSA:abc123" ||    # The middle management clones
           "DSA:bcd987" ||
           "DSA:cde333" ||
           "DSA:def975" ||
           "DSA:978add"
Conditions: (app_domain="SPEND")  # nested clauses
              -> { (@(dollars) < 100) -> _MAX_TRUST;
                   (@(dollars) < 500) -> "ApproveAndLog";
                 };
Signature: "RSA-SHA1:186123"
"#;

const MAB: &str = "mab@keynote.research.att.com";

/// The rank and the report's entries.
fn asked(draft: &Draft) -> (u8, Vec<u8>) {
    let mut page = [0; PAGE];
    let outcome = answer(&draft.record(), &mut page);
    assert_eq!(outcome.number, 0);
    (outcome.rank, page[3..3 + 3 * draft.assertions.len()].to_vec())
}

fn email(b: &str, requester: &str, attributes: &[(&str, &str)]) -> (u8, Vec<u8>) {
    let mut draft = Draft::default().value("_MIN").value("_MAX").requester(requester);
    for (name, value) in attributes {
        draft = draft.attribute(name, value);
    }
    asked(&draft.local(A).assertion(2, b).assertion(2, C).assertion(2, D))
}

/// B with a comparison in the place of its pattern.
fn plain_b() -> String {
    B.replace("address ~=", "address >=").replace("^.*@keynote\\\\.research\\\\.att\\\\.com$", "@")
}

/// The credentials name "DSA:" keys; the RFC asks with "dsa:", the same keys.
#[test]
fn email_with_a_plain_test() {
    let b = plain_b();
    let rank = |requester, attributes: &[(&str, &str)]| {
        let (rank, entries) = email(&b, requester, attributes);
        assert_eq!(entries, [0; 12]);
        rank
    };
    let domain = ("app_domain", "RFC822-EMAIL");
    for (mab, jf) in [("dsa:12340987", "dsa:abc991"), ("DSA:12340987", "DSA:abc991"), ("dSa:12340987", "Dsa:abc991")] {
        assert_eq!(rank(mab, &[domain, ("address", MAB)]), 1);
        assert_eq!(rank(mab, &[domain, ("address", MAB), ("name", "M. Blaze")]), 1);
        assert_eq!(rank(mab, &[domain, ("address", "angelos@dsl.cis.upenn.edu")]), 0);
        assert_eq!(rank(jf, &[domain, ("address", MAB), ("name", "M. Blaze")]), 0);
        assert_eq!(rank(mab, &[domain, ("address", MAB), ("name", "J. Feigenbaum")]), 0);
        assert_eq!(rank(jf, &[domain, ("address", "jf@keynote.research.att.com")]), 1);
    }
    // The digits of a "DSA:" key compare by case.
    assert_eq!(rank("DSA:ABC991", &[domain, ("address", "jf@keynote.research.att.com")]), 0);
}

/// POLICY, RSA:abc123, Alice, Bob, mab and jf's three keys are reached; the
/// requester, Alice, RSA:abc123 and POLICY have a round each.
#[test]
fn email_in_small_letters() {
    let b = plain_b();
    let asked = Draft::default().value("_MIN").value("_MAX").requester("dsa:12340987");
    let asked = asked.attribute("app_domain", "RFC822-EMAIL").attribute("address", MAB);
    let draft = asked.local(A).assertion(2, b).assertion(2, C).assertion(2, D);
    let expected = Outcome { rank: 1, rounds: 4, reached: 8, ..Outcome::default() };
    assert_eq!(answer(&draft.record(), &mut [0; PAGE]), expected);
}

#[test]
fn email_as_printed() {
    let rank = |b: &str, requester: &str, address: &str| {
        let (rank, entries) = email(b, requester, &[("app_domain", "RFC822-EMAIL"), ("address", address)]);
        assert_eq!(entries, [0; 12]);
        rank
    };
    assert_eq!(rank(B, "DSA:12340987", MAB), 1);
    let alice = "dsa:4401ff92";
    assert_eq!(rank(B, alice, "angelos@keynote.research.att.com"), 1);
    assert_eq!(rank(B, alice, "angelos@dsl.cis.upenn.edu"), 0);
    assert_eq!(rank(B, alice, "angelos@keynote.research.att.com.example"), 0);
    // A literal needs two backslashes for a dot: one vanishes.
    let dots = "angelos@keynoteXresearchXattXcom";
    assert_eq!((rank(B, alice, dots), rank(&B.replace("\\\\.", "\\."), alice, dots)), (0, 1));
}

fn spend(h: &str, requesters: &str, dollars: &str) -> (u8, Vec<u8>) {
    let mut draft = Draft::default().value("Reject").value("ApproveAndLog").value("Approve");
    for requester in requesters.split(',') {
        draft = draft.requester(requester);
    }
    draft = draft.attribute("app_domain", "SPEND").attribute("dollars", dollars);
    draft = draft.attribute("unmentioned_attribute", "whatever");
    asked(&draft.local(E).assertion(2, F).local(G).assertion(2, h))
}

#[test]
fn spend_corrected() {
    let h = H.replace("app_domain=\"", "app_domain==\"");
    for (requesters, dollars, expected) in [
        ("DSA:978add", "45", 2),
        ("RSA:abc123,DSA:cde333", "550", 2),
        ("DSA:feed1234,DSA:cde333", "5500", 1),
        ("DSA:cde333", "150", 1),
        ("DSA:def975", "550", 0),
        ("DSA:cde333,DSA:978add", "5500", 0),
    ] {
        assert_eq!(spend(&h, requesters, dollars), (expected, vec![0; 12]), "{requesters} {dollars}");
    }
}

#[test]
fn spend_as_printed() {
    let place = (H.find("=\"SPEND").unwrap() as u16).to_be_bytes();
    let entries = vec![0, 0, 0, 0, 0, 0, 0, 0, 0, 2, place[0], place[1]];
    // Without H, one signer isn't enough.
    assert_eq!(spend(H, "DSA:978add", "45"), (0, entries.clone()));
    assert_eq!(spend(H, "RSA:abc123,DSA:cde333", "550"), (2, entries.clone()));
    assert_eq!(spend(H, "DSA:feed1234,DSA:cde333", "5500"), (1, entries));
}

/// Section 5.3.4's clauses on user names.
#[test]
fn clauses() {
    let text = r#"Authorizer: "POLICY"
Conditions:
    @user_id == 0 -> "full_access";             # clause (1)
    @user_id < 1000 -> "user_access";           # clause (2)
    @user_id < 10000 -> "guest_access";         # clause (3)
    user_name == "root" -> "full_access";       # clause (4)
"#;
    let rank = |id, name| {
        let draft = Draft::default()
            .value("no_access")
            .value("guest_access")
            .value("user_access")
            .value("full_access")
            .requester("r")
            .attribute("user_id", id)
            .attribute("user_name", name)
            .local(text);
        asked(&draft).0
    };
    assert_eq!(rank("1073", "root"), 3);
    assert_eq!(rank("19283", "nobody"), 0);
    assert_eq!(rank("999", "nobody"), 2);
    assert_eq!(rank("", ""), 3);
}

/// Section 4.3.1's four spellings of one string.
#[test]
fn literals() {
    let spellings = [
        "\"this string contains a newline\\n followed by one space.\"",
        "\"this string contains a newline\\n \\\n        followed by one space.\"",
        "\"this str\\\n           ing contains a \\\n             newline\\n followed by one space.\"",
        "\"this string contains a newline\\012\\040followed by one space.\"",
    ];
    for left in spellings {
        for right in spellings {
            let text = format!("Authorizer: \"POLICY\"\nConditions: {left} == {right};");
            assert_eq!(asked(&Draft::plain().local(text)), (1, vec![0; 3]), "{left} {right}");
        }
    }
}

/// Section 4.4's dereferences.
#[test]
fn dereferences() {
    let draft = Draft::plain().attribute("foo", "bar").attribute("bar", "xyz").attribute("xyz", "qua");
    let text = "Authorizer: \"POLICY\"\nConditions: foo == \"bar\" && $(\"foo\") == \"bar\" && $foo == \"xyz\"
 && $(foo) == \"xyz\" && $$foo == \"qua\";";
    assert_eq!(asked(&draft.local(text)), (1, vec![0; 3]));
}
