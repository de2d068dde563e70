//! Exit statuses, mistakes, and inputs of all sorts.

mod common;

use common::{file, first_ruling, mistake, plain, prefixed, printed, run, status, told};

#[test]
fn help() {
    for arguments in [&["--help"][..], &["ask", "--help"], &["batch", "-h"], &["explain", "--help"]] {
        let output = run(arguments, b"");
        assert_eq!(status(&output), 0);
        assert!(printed(&output).starts_with("NAME\n"), "{arguments:?}");
    }
}

#[test]
fn mistakes_name_the_argument() {
    let long = "v".repeat(65);
    assert!(mistake(2, &plain(&["-v", &long]), b"").contains("65 bytes, but a compliance value has 1 to 64"));
    assert!(mistake(2, &plain(&["-v", ""]), b"").contains("0 bytes"));
    assert!(mistake(2, &["ask", "--values", "a,b"], b"").contains("--requester: 0 requesters"));
    assert!(mistake(2, &plain(&["-a", "9x=1"]), b"").contains("--attribute \"9x=1\": \"9\" at 0"));
    assert!(mistake(2, &plain(&["-a", "_x=1"]), b"").contains("\"_\" at 0"));
    assert!(mistake(2, &plain(&["-a", "_ACTION_AUTHORIZERS = \"a\""]), b"").contains("--requester gives"));
    assert!(mistake(2, &plain(&["-a", "x"]), b"").contains("no \"=\""));
    assert!(mistake(2, &plain(&["-a", "x=1", "-a", "x=2"]), b"").contains("first in --attribute \"x=1\""));
}

#[test]
fn mistakes_name_the_file() {
    assert!(mistake(4, &plain(&["--attributes", "-"]), b"x=1\r\n\n# y\ny\n").contains("-:4: no \"=\""));
    assert!(mistake(4, &plain(&["--attributes", "-"]), b"x=1\nx=2\n").contains("-:2: an attribute's name that stands"));
    assert!(mistake(4, &plain(&["--local", "-"]), b"# nothing\n").contains("no assertion"));
    assert!(mistake(4, &plain(&["--record", "/nowhere/x"]), b"").contains("--record /nowhere/x: "));
    assert!(mistake(4, &["batch", "/nowhere/x"], b"").contains("/nowhere/x: "));
    assert!(mistake(4, &["explain", "/nowhere/x"], b"").starts_with("lampsickle: /nowhere/x: "));
}

#[test]
fn the_201st_assertion_is_named() {
    let many = "Authorizer: \"b\"\nConditions:\n\n".repeat(201);
    let words = mistake(2, &plain(&["--local", "-"]), many.as_bytes());
    assert!(words.contains("201 assertions, but a query has 0 to 200; the first too many is -:601"), "{words}");
}

#[test]
fn a_text_and_a_record_that_are_too_long() {
    let long = format!("\n\nAuthorizer: \"b\"\n#{}", "x".repeat(8_192));
    assert!(mistake(4, &plain(&["--local", "-"]), long.as_bytes())
        .contains("-:3: this assertion goes on for more than 8192"));
    let many = format!("Authorizer: \"b\"\nConditions:#{}\n\n", "x".repeat(8_000)).repeat(9);
    assert!(mistake(2, &plain(&["--local", "-"]), many.as_bytes()).contains("all together: "));
}

#[test]
fn attributes_of_a_file_and_bytes_of_any_kind() {
    let attributes = file("attributes", b"# all\n\nx=a=b\r\ny=\xff\n");
    let policy = file("policy", b"Authorizer: \"POLICY\"\nConditions: x == \"a=b\" && y == \"\xff\";");
    let output = run(&plain(&["--attributes", &attributes, "--local", &policy]), b"");
    assert!(printed(&output).starts_with("class immediate\nrank 1 of 2\n"), "{}", printed(&output));
}

#[test]
fn the_record_of_the_first_ruling() {
    let output = run(&plain(&["--local", "-", "--record", "-"]), b"Authorizer: \"POLICY\"\nLicensees: \"a\"\n");
    assert_eq!((status(&output), output.stdout), (0, first_ruling()));
}

#[test]
fn every_beginning_of_a_record_is_explained() {
    let record = first_ruling();
    for length in 0..record.len() {
        let output = run(&["explain", "-"], &record[..length]);
        assert_eq!(status(&output), 3);
        assert!(printed(&output).contains("refused "), "{length}");
    }
}

#[test]
fn explained_in_json() {
    let output = run(&["explain", "--json", "-"], &first_ruling());
    let text = printed(&output);
    assert!(text.starts_with("{\"answered\":true,\"class\":\"immediate\",\"rank\":1,"), "{text}");
    assert!(text.contains("{\"start\":19,\"end\":20,\"words\":\"1 requester\"}"), "{text}");
}

/// A literal that is no pattern, with a caret at what is wrong in it.
#[test]
fn explained_patterns() {
    let text = "Authorizer: \"POLICY\"\nConditions: \"a\" ~= \"\\\\.[b-a]\" || x ~= p || x ~= (\"c|\");\n";
    let record = run(&plain(&["--local", "-", "-a", "p=(", "-a", "x=1", "--record", "-"]), text.as_bytes()).stdout;
    let explained = printed(&run(&["explain", "-"], &record));
    assert!(explained.contains("-, assertion 0:2:27: warning: this is no pattern, so the test is an error: this range"));
    let line = text.lines().nth(1).expect("two lines");
    assert!(explained.contains(&format!("  2 | {line}\n    | {}^\n", " ".repeat(26))), "{explained}");
    assert!(explained.contains("the last branch is empty\n") && !explained.contains("isn't closed"), "{explained}");
    let json = printed(&run(&["explain", "--json", "-"], &record));
    assert!(
        json.contains("\"patterns\":[{\"file\":\"-, assertion 0\",\"line\":2,\"column\":27,\"place\":47,"),
        "{json}"
    );
    assert!(!printed(&run(&["explain", "--json", "-"], &first_ruling())).contains("patterns"));
}

#[test]
fn batches() {
    let (record, long) = (first_ruling(), vec![1; 200_000]);
    let output = run(&["batch"], &prefixed(&[&record, &long, &record, b""]));
    let lines: Vec<String> = printed(&output).lines().map(String::from).collect();
    assert_eq!((status(&output), told(&output)), (3, String::new()));
    assert_eq!(lines.len(), 4);
    assert!(lines[0].starts_with("record 0: class immediate, rank 1 of 2, "));
    assert!(lines[1].starts_with("record 1: refused 1 at 0"));
    assert!(lines[2].starts_with("record 2: class immediate"));
    assert!(lines[3].starts_with("record 3: refused 2 at 0"));
    assert_eq!(status(&run(&["batch"], &prefixed(&[&record]))), 0);
    assert_eq!(status(&run(&["batch"], b"")), 0);
}

#[test]
fn batches_that_are_cut() {
    let all = prefixed(&[&first_ruling()]);
    for length in [1, 3, 4, 30] {
        assert!(mistake(4, &["batch"], &all[..length]).contains("cut short"), "{length}");
    }
}

#[test]
fn a_batch_in_json() {
    let text = printed(&run(&["batch", "--json"], &prefixed(&[&first_ruling(), b"\0"])));
    let lines: Vec<&str> = text.lines().collect();
    assert!(lines[0].ends_with("\"assertions\":[{\"reason\":0,\"place\":0}],\"record\":\"record 0\"}"), "{text}");
    assert!(lines[1].starts_with("{\"answered\":false,\"number\":2,\"place\":0,"), "{text}");
}
