//! Where a person could mean two things the program stops and says so, and raises
//! no class.

mod common;

use std::fs;
use std::io::{BufRead, BufReader, Read, Write};
use std::process::{Command, Stdio};
use std::sync::mpsc;
use std::time::Duration;

use common::{file, first_ruling, mistake, plain, prefixed, printed, run, status, told, PROGRAM};

const TOP: &str = "class immediate\n";

/// The answer to a query that has one.
fn class(arguments: &[&str], input: &[u8]) -> String {
    let output = run(arguments, input);
    assert_eq!(status(&output), 0, "{}", told(&output));
    printed(&output).lines().next().map(|line| format!("{line}\n")).expect("a class")
}

/// What is told beside the answer.
fn aside(arguments: &[&str], input: &[u8]) -> String {
    told(&run(arguments, input))
}

const ROOT: &str = "Authorizer: \"POLICY\"\nLicensees: \"k\"\n";
const SIGNED: &str = "Authorizer: \"k\"\nLicensees: \"b\"\nSignature: \"s\"\n";
const MORE: &str = "Authorizer: \"k\"\nLicensees: \"a\"\n";

#[test]
fn text_after_a_signature_is_not_verified() {
    let policy = file("root.kn", ROOT);
    let ask = |option: &str, content: &str| {
        mistake(4, &plain(&["--local", &policy, option, &file("credential.kn", content)]), b"")
    };
    assert!(ask("--verified", &format!("{SIGNED}\n{MORE}")).contains("credential.kn:5: a second assertion"));
    assert!(ask("--all-verified", &format!("{SIGNED}\n{MORE}")).contains("credential.kn:5: no Signature in this part"));
    for option in ["--verified", "--all-verified", "--unverified", "--local"] {
        assert!(ask(option, &format!("{SIGNED}{MORE}")).contains("credential.kn:4: text after the Signature"));
    }
}

#[test]
fn a_bundle_is_asked_for() {
    let policy = file("bundle-root.kn", ROOT);
    let bundle = file("bundle.kn", format!("{SIGNED}\n{MORE}Signature: \"t\"\n"));
    assert_eq!(class(&plain(&["--local", &policy, "--all-verified", &bundle]), b""), TOP);
    assert!(mistake(4, &plain(&["--local", &policy, "--verified", &bundle]), b"").contains("--all-verified"));
}

#[test]
fn a_stray_blank_line_grants_nothing() {
    let cut = "Authorizer: \"POLICY\"\n\nLicensees: \"b\"\nConditions: x == \"1\";\n";
    let other = "Authorizer: \"POLICY\"\nLicensees: \"a\"\n\nConditions: x == \"1\";\n";
    for option in ["--local", "--verified", "--all-verified", "--unverified"] {
        let words = mistake(4, &plain(&[option, "-"]), cut.as_bytes());
        assert!(words.contains("-:3: no Authorizer in this part") && words.contains("take it out"), "{words}");
        let words = mistake(4, &plain(&[option, "-"]), other.as_bytes());
        assert!(words.contains("-:4: no Authorizer in this part"), "{words}");
    }
}

/// Wherever a blank line gets into an example, a stranger gets no more by it.
#[test]
fn no_blank_line_raises_a_class() {
    let examples = [
        ("port/policy.kn", "--local"),
        ("port/station-north.kn", "--local"),
        ("port/agents.kn", "--all-verified"),
        ("spend/policy.kn", "--local"),
        ("spend/credential-f.kn", "--verified"),
        ("email/credentials-cd.kn", "--all-verified"),
    ];
    let everybody = file("everybody.kn", "Authorizer: \"POLICY\"\nLicensees: \"station:north\" || \"RSA:dab212\"\n");
    let (mut answered, mut stopped) = (0, 0);
    for (name, option) in examples {
        let text = fs::read_to_string(common::root().join("examples").join(name)).expect("an example");
        let starts = text.match_indices('\n').map(|(place, _)| place + 1);
        for (start, blank) in starts.flat_map(|start| ["\n", " \t\n"].map(|blank| (start, blank))) {
            let cut = file("blank.kn", format!("{}{blank}{}", &text[..start], &text[start..]));
            let output = run(&plain(&["--local", &everybody, option, &cut]), b"");
            match status(&output) {
                0 => assert!(printed(&output).starts_with("class hold\n"), "{name} at {start}"),
                other => assert_eq!((other, output.stdout.len()), (4, 0), "{name} at {start}"),
            }
            *if status(&output) == 0 { &mut answered } else { &mut stopped } += 1;
        }
    }
    assert!(answered > 20 && stopped > 60, "{answered} {stopped}");
}

#[test]
fn a_part_that_lost_its_fields() {
    let lost = "Authorizer: \"POLICY\"\n\nLicensees: \"b\"\nAuthorizer: \"POLICY\"\n";
    assert!(mistake(4, &plain(&["--local", "-"]), lost.as_bytes()).contains("neither Licensees nor Conditions"));
    // Everybody may be meant: in a file of its own, or in words.
    assert_eq!(class(&plain(&["--local", "-"]), b"Authorizer: \"POLICY\"\n"), TOP);
    let meant = format!("Authorizer: \"POLICY\"\nConditions: true;\n\n{ROOT}");
    assert_eq!(class(&plain(&["--local", "-"]), meant.as_bytes()), TOP);
}

const LIMIT: &str = "Authorizer: \"POLICY\"\nLicensees: \"a\"\nConditions: @dollars < 100;\n";

#[test]
fn attributes_as_the_rfc_writes_them() {
    let limit = file("limit.kn", LIMIT);
    let ask =
        |content: &str| class(&plain(&["--local", &limit, "--attributes", &file("rfc.attributes", content)]), b"");
    assert_eq!(ask("# all\n   dollars = \"450\"  # many\n"), "class hold\n");
    assert_eq!(ask("dollars=450\r\n"), "class hold\n");
    assert_eq!(ask("\tdollars=\"4\\\n   5\"\n"), TOP);
    assert_eq!(class(&plain(&["--local", &limit, "-a", "dollars = \"\\0645\\060\""]), b""), "class hold\n");
}

#[test]
fn attributes_that_are_neither_are_refused() {
    let limit = file("limit-neither.kn", LIMIT);
    let cases =
        ["dollars = 450", "dollars=450 ", "dollars=\"450", "dollars='450'", "dollars=450 # x", "dollars=\"4\"50"];
    for given in cases {
        let words = mistake(2, &plain(&["--local", &limit, "-a", given]), b"");
        assert!(words.contains("--attribute \"dollars"), "{words}");
        mistake(4, &plain(&["--local", &limit, "--attributes", "-"]), given.as_bytes());
    }
    mistake(4, &plain(&["--local", &limit, "--attributes", "-"]), b"app_domain=SPEND\rdollars=450\r");
    let words = mistake(4, &plain(&["--local", &limit, "--attributes", "-"]), b"\xef\xbb\xbfdollars=450\n");
    assert!(words.contains("byte order mark"), "{words}");
}

#[test]
fn warnings_of_attributes() {
    let limit = file("limit-warned.kn", LIMIT);
    let ask = |more: &[&str]| aside(&plain(&[&["--local", &limit][..], more].concat()), b"");
    assert_eq!(ask(&["-a", "dollars=45"]), "");
    for value in ["many", "1e3", "99999999999", ""] {
        let words = ask(&["-a", &format!("dollars={value}")]);
        assert!(words.contains("limit-warned.kn:3:13: \"@\" makes 0 of dollars, which is"), "{words}");
        assert_eq!(ask(&["-a", &format!("dollars={value}"), "--no-warn", "number"]), "");
    }
    let words = ask(&["-a", "dolars=450"]);
    assert!(words.contains("\"@\" makes 0 of dollars, which isn't set"), "{words}");
    assert!(words.contains("--attribute \"dolars=450\": no assertion that was kept reads dolars"), "{words}");
    assert_eq!(ask(&["-a", "dolars=450", "--no-warn", "number,unread,unset"]), "");
    // What one kind no longer says the other does.
    assert!(ask(&["--no-warn", "number"]).contains("dollars isn't set, so it is empty (--no-warn unset)"));
}

#[test]
fn warnings_of_floats() {
    let draught = file("draught.kn", "Authorizer: \"POLICY\"\nConditions: &draught < 8.5 && &\"7,5\" < 8.5;\n");
    let ask = |more: &[&str]| aside(&plain(&[&["--local", &draught][..], more].concat()), b"");
    for value in ["7,5", "7.5 m", "1e1", "7.5000000000000000000", ""] {
        let words = ask(&["-a", &format!("draught={value}")]);
        assert!(words.contains("draught.kn:2:13: \"&\" makes 0 of draught, which is"), "{words}");
        assert_eq!(ask(&["-a", &format!("draught={value}"), "--no-warn", "number"]), "");
    }
    let words = ask(&["-a", "draught=7.5"]);
    assert!(words.ends_with(
        "draught.kn:2:31: \"&\" makes 0 of \"7,5\", which is no number of at most 18 digits (--no-warn number)\n"
    ));
    assert_eq!(words.lines().count(), 1, "{words}");
}

#[test]
fn warnings_of_patterns() {
    let text = "Authorizer: \"POLICY\"\nConditions: x ~= \"a**\" || x ~= p || x ~= \"^\" . p || x ~= \"b\";\n";
    let ask = |more: &[&str]| aside(&plain(&[&["--local", "-", "-a", "x=1"][..], more].concat()), text.as_bytes());
    let words = ask(&["-a", "p=[a"]);
    let expected = "lampsickle: warning: -:2:21: this is no pattern, so the test is an error: \
there is nothing that this \"*\" could repeat (--no-warn pattern)
lampsickle: warning: -:2:29: \"[a\" is no pattern, so the test is an error: this set isn't closed (--no-warn pattern)
lampsickle: warning: -:2:39: \"^[a\" is no pattern, so the test is an error: this set isn't closed (--no-warn pattern)\n";
    assert_eq!(words, expected);
    assert_eq!(ask(&["-a", "p=[a", "--no-warn", "pattern"]), "");
    assert_eq!(ask(&["-a", "p=[a]"]).lines().count(), 1);
}

#[test]
fn warnings_of_names_that_are_not_set() {
    let text = "Local-Constants: c = \"1\"\nAuthorizer: \"POLICY\"\n\
                Conditions: c == \"1\" && nam == \"\" && TRUE && _MAX_TRUST != \"\";\n";
    let words = aside(&plain(&["--local", "-"]), text.as_bytes());
    assert_eq!(words, "lampsickle: warning: -:3:25: nam isn't set, so it is empty (--no-warn unset)\n");
    assert_eq!(aside(&plain(&["--local", "-", "--no-warn", "unset"]), text.as_bytes()), "");
    // A computed name may be any, and what is set aside reads nothing.
    let computed = b"Authorizer: \"POLICY\"\nConditions: $(\"x\" . \"y\") == \"\";\n";
    assert_eq!(aside(&plain(&["--local", "-", "-a", "z=1"]), computed), "");
    let away = run(&plain(&["--unverified", "-", "-a", "nam=1"]), text.as_bytes());
    assert!(told(&away).contains("no assertion that was kept reads nam"), "{}", told(&away));
}

/// A warning never changes what is asked.
#[test]
fn warnings_leave_the_record_alone() {
    let limit = file("limit-record.kn", LIMIT);
    let record = |more: &[&str]| {
        let output =
            run(&plain(&[&["--local", &limit, "-a", "dollars=many", "--record", "-"][..], more].concat()), b"");
        (status(&output), output.stdout.clone(), told(&output).contains("makes 0 of dollars"))
    };
    let (status, bytes, warned) = record(&[]);
    assert!(status == 0 && warned);
    assert_eq!(record(&["--no-warn", "number"]), (0, bytes, false));
}

#[test]
fn an_option_is_no_value() {
    let policy = file("option.kn", "Authorizer: \"POLICY\"\nLicensees: \"--json\"\n");
    let ask = ["ask", "--values", "hold,immediate", "--local", &policy];
    let with = |more: &[&str]| ask.iter().chain(more).map(|word| word.to_string()).collect::<Vec<_>>();
    let refused = |more: &[&str]| {
        let words = with(more);
        mistake(2, &words.iter().map(String::as_str).collect::<Vec<_>>(), b"")
    };
    assert!(refused(&["-r", "--json"]).contains("-r: \"--json\" looks like an option"), "-r");
    assert!(refused(&["--requester", "-"]).contains("--requester=-"));
    assert!(refused(&["-r", "a", "--attributes", "--strict"]).contains("--attributes=--strict"));
    let words = with(&["--requester=--json"]);
    assert_eq!(class(&words.iter().map(String::as_str).collect::<Vec<_>>(), b""), TOP);
}

#[test]
fn standard_input_is_named_once() {
    let words = mistake(2, &plain(&["--local", "-", "--attributes", "-"]), LIMIT.as_bytes());
    assert!(words.contains("named twice"), "{words}");
    assert!(mistake(2, &["batch", "-", "-"], b"").contains("named twice"));
}

/// A program that holds both ends open gets each answer before it sends the next.
#[test]
fn batch_answers_a_co_process() {
    let mut child =
        Command::new(PROGRAM).arg("batch").stdin(Stdio::piped()).stdout(Stdio::piped()).spawn().expect("the program");
    let mut input = child.stdin.take().expect("an input");
    let output = child.stdout.take().expect("an output");
    let (sender, lines) = mpsc::channel();
    let reader = std::thread::spawn(move || {
        BufReader::new(output).lines().map_while(Result::ok).try_for_each(|line| sender.send(line)).ok();
    });
    for number in 0..3 {
        input.write_all(&prefixed(&[&first_ruling()])).expect("it is read");
        let line = lines.recv_timeout(Duration::from_secs(20));
        drop(line.as_ref().err().map(|_| child.kill()));
        assert!(line.expect("an answer in time").starts_with(&format!("record {number}: class immediate")));
    }
    drop(input);
    assert_eq!(child.wait().expect("an end").code(), Some(0));
    reader.join().expect("the reader");
}

#[test]
fn batch_with_a_pipe_that_is_closed() {
    let mut child = Command::new(PROGRAM)
        .arg("batch")
        .stdin(Stdio::piped())
        .stdout(Stdio::piped())
        .stderr(Stdio::piped())
        .spawn()
        .expect("the program");
    drop(child.stdout.take());
    let mut input = child.stdin.take().expect("an input");
    let all = prefixed(&[&first_ruling()]).repeat(20_000);
    // It stops reading when nobody listens.
    assert!(input.write_all(&all).is_err());
    drop(input);
    let output = child.wait_with_output().expect("its end");
    assert_eq!((status(&output), told(&output)), (0, String::new()));
}

#[test]
fn batch_goes_on_behind_a_file_that_is_missing() {
    let record = file("going-on.record", first_ruling());
    let output = run(&["batch", "nowhere.record", &record, "-", &record], &prefixed(&[&first_ruling()]));
    assert_eq!(status(&output), 4);
    assert!(told(&output).starts_with("lampsickle: nowhere.record: "), "{}", told(&output));
    let lines: Vec<String> = printed(&output).lines().map(String::from).collect();
    assert_eq!(lines.len(), 3);
    assert!(lines.iter().all(|line| line.contains(": class immediate, rank 1 of 2")), "{lines:?}");
    assert!(lines[1].starts_with("record 1: "), "{lines:?}");
    let whole = run(&["batch", "-"], &prefixed(&[&first_ruling()]));
    assert_eq!((status(&whole), printed(&whole).lines().count()), (0, 1));
}

/// Whether a text has something that a terminal obeys, or that turns it around.
fn obeyed(text: &str) -> bool {
    text.chars().any(|character| {
        character != '\n' && character.is_control()
            || matches!(character, '\u{200e}' | '\u{200f}' | '\u{61c}' | '\u{202a}'..='\u{202e}' | '\u{2066}'..='\u{2069}')
    })
}

#[test]
fn what_an_assertion_says_is_escaped() {
    let marks = "\u{1b}[2J\u{9b}31m\u{202e}\u{2067}\u{200f}\u{7f}";
    let text = format!("Authorizer: \"POLICY\" {marks}\n");
    let output = run(&plain(&["--local", "-"]), text.as_bytes());
    assert!(!obeyed(&told(&output)) && told(&output).contains("\\x1b[2J\\u{9b}31m\\u{202e}"), "{}", told(&output));
    let json = printed(&run(&plain(&["--json", "--requester", marks]), b""));
    assert!(!obeyed(&json), "{json}");
    let record = run(&plain(&["--requester", marks, "--local", "-", "--record", "-"]), text.as_bytes()).stdout;
    for arguments in [&["explain", "-"][..], &["explain", "--json", "-"]] {
        let output = run(arguments, &record);
        assert!(!obeyed(&printed(&output)) && printed(&output).contains("202e"), "{}", printed(&output));
    }
    assert!(!obeyed(&mistake(2, &plain(&["-a", marks]), b"")));
    assert!(!obeyed(&mistake(4, &plain(&["--local", marks]), b"")));
    let values = ["ask", "--value", "x", "--value", marks, "--requester", "a", "--local", "-"];
    let class = printed(&run(&values, b"Authorizer: \"POLICY\"\n"));
    assert!(!obeyed(&class) && class.contains("202e"), "{class}");
}

#[test]
fn long_lines_are_cut_around_the_caret() {
    let filler = "x".repeat(3_000);
    let text = format!(
        "Authorizer: \"POLICY\"\nConditions: a == \"{}\" = here == \"{}\";\n",
        &filler[..1_500],
        &filler[..1_500]
    );
    let told = aside(&plain(&["--local", "-"]), text.as_bytes());
    let lines: Vec<&str> = told.lines().collect();
    assert!(lines[1..].iter().all(|line| line.chars().count() <= 200), "{told}");
    let caret = lines[2].chars().count() - 1;
    assert_eq!(lines[1].chars().skip(caret).take(6).collect::<String>(), "= here");
    assert!(lines[1].contains('…'));
}

#[test]
fn messages() {
    let of = |text: &[u8]| aside(&plain(&["--local", "-"]), text);
    assert!(of(b"  Authorizer: \"POLICY\"\n").contains("text before the first label"));
    assert!(
        of(b"\xef\xbb\xbfAuthorizer: \"POLICY\"\n").contains("byte order mark stands before the text: save the file")
    );
    assert!(of(b"Authorizer: \"POLICY\"\r\n").contains("a return (\\r) isn't permitted here: lines end"));
    assert!(of(b"Authorizer: \"k\"\r\nSignature: \"s\"\r\n").contains("a return (\\r) isn't permitted here: lines end"));
    let deep = format!("Authorizer: \"POLICY\"\nConditions: {}", "(".repeat(17));
    assert!(of(deep.as_bytes()).contains("with this bracket more than 16 are open (reason 7"));
    let words = of(b"Authorizer: \"POLICY\"\nConditions: dollars < 100;\n");
    assert!(words.contains("these could: a string in quotes, a name, \"(\", \"$\" (reason 2"), "{words}");
    let words = of(b"Authorizer: \"POLICY\"\nConditions: &draught != 7.5;\n");
    assert!(words.contains("floats aren't tested for equality; these could stand here: \"<\", \">\","), "{words}");
    let words = of(b"Authorizer: \"POLICY\"\nConditions: &draught < 8;\n");
    assert!(words.contains("this can't stand here; these could: a float, \"(\", \"&\", \"-\" (reason 2"), "{words}");
}

#[test]
fn every_exit_status() {
    let (policy, bad) = (file("status.kn", ROOT), file("status-bad.kn", "Authorizer: POLICY\n"));
    let of = |arguments: &[&str]| status(&run(arguments, b""));
    let ask = |more: &[&str]| of(&plain(more));
    assert_eq!(ask(&["-l", &policy]), 0);
    assert_eq!(ask(&["-r", "k", "-l", &policy, "--require", "immediate", "--strict"]), 0);
    assert_eq!(ask(&["-l", &policy, "--require", "immediate"]), 1);
    assert_eq!(ask(&["-l", &policy, "--require", "hold"]), 0);
    assert_eq!(ask(&["-l", &policy, "--require", "nothing"]), 2);
    assert_eq!(ask(&["-l", &policy, "--record", "-", "--require", "hold"]), 2);
    assert_eq!(ask(&["--nothing"]), 2);
    assert_eq!(of(&["explain", &policy]), 3);
    assert_eq!(ask(&["-l", "nowhere.kn"]), 4);
    assert_eq!(ask(&["-l", &bad]), 0);
    assert_eq!(ask(&["-l", &bad, "--strict"]), 5);
    assert_eq!(ask(&["-l", &bad, "--strict", "--require", "immediate"]), 5);
}

#[test]
fn exit_status_of_a_batch() {
    let bad = run(&plain(&["-l", "-", "--record", "-"]), b"Authorizer: POLICY\n").stdout;
    let (good, bad) = (file("good.record", first_ruling()), file("bad.record", bad));
    let of = |arguments: &[&str]| status(&run(&[&["batch"], arguments].concat(), b""));
    assert_eq!(of(&["--require", "immediate", "--strict", &good]), 0);
    assert_eq!(of(&["--require", "immediate", &good, &bad]), 1);
    assert_eq!(of(&["--require", "nothing", &good]), 1);
    assert_eq!(of(&["--require", "immediate", "--strict", &good, &bad]), 5);
    assert_eq!(of(&["--strict", &bad, "/dev/null"]), 3);
    assert_eq!(of(&["--strict", &bad, "/dev/null", "nowhere.record"]), 4);
}

#[test]
fn the_answer_alone_is_printed() {
    let output = run(&plain(&["-l", "-", "-a", "x=1", "--strict"]), b"Authorizer: POLICY\n");
    assert_eq!(printed(&output), "class hold\nrank 0 of 2\nrounds 0\nreached 1\n");
    let told = told(&output);
    assert!(
        told.starts_with("-:1:13: set aside: ") && told.contains("warning: ") && told.contains("(--strict)"),
        "{told}"
    );
}

#[test]
fn endless_files_end() {
    for option in ["--local", "--verified", "--all-verified", "--unverified"] {
        let words = mistake(4, &plain(&[option, "/dev/zero"]), b"");
        assert!(words.contains("/dev/zero:1: this assertion goes on for more than 8192 bytes"), "{words}");
    }
    let words = mistake(4, &plain(&["--attributes", "/dev/zero"]), b"");
    assert!(words.contains("more than 1048576 bytes"), "{words}");
    let comments = file("comments.kn", "#\n\n".repeat(500_000));
    assert!(mistake(4, &plain(&["--local", &comments]), b"").contains("more than 1048576 bytes"));
    assert_eq!(status(&run(&["explain", "/dev/zero"], b"")), 3);
    assert_eq!(status(&run(&["batch", "/dev/zero"], b"")), 3);
    let mut yes = Command::new("yes").stdout(Stdio::piped()).spawn().expect("yes");
    let stream = yes.stdout.take().expect("its output");
    let mut command = Command::new(PROGRAM);
    let output = command.args(plain(&["--local", "-"])).stdin(stream).output().expect("the program");
    let _ = (yes.kill(), yes.wait());
    assert_eq!(status(&output), 4);
}

/// The two programs bear two names where they are installed.
#[test]
fn installed_under_two_names() {
    let folder = std::path::Path::new(env!("CARGO_TARGET_TMPDIR")).join("installing");
    let _ = fs::remove_dir_all(&folder);
    for (file, content) in [("cli/target/release/lampsickle", "command line"), ("target/bin/lampsickle", "record")] {
        fs::create_dir_all(folder.join(file).parent().expect("a folder")).expect("a folder");
        fs::write(folder.join(file), content).expect("a file");
    }
    fs::create_dir_all(folder.join("tools")).expect("a folder");
    // A link and no copy: a program that was just written can't be started while the child of another test still has it open.
    fs::hard_link(common::root().join("tools/install"), folder.join("tools/install")).expect("a link");
    let install = || Command::new(folder.join("tools/install")).arg(folder.join("bin")).output().expect("a shell");
    assert!(install().status.success());
    let read = |name: &str| {
        let mut content = String::new();
        fs::File::open(folder.join("bin").join(name)).expect("a file").read_to_string(&mut content).expect("text");
        content
    };
    assert_eq!((read("lampsickle"), read("lampsickle-record")), ("command line".into(), "record".into()));
    fs::remove_file(folder.join("target/bin/lampsickle")).expect("a file");
    assert!(!install().status.success());
    fs::remove_dir_all(folder).expect("an end");
}

#[test]
fn nobody_asks_as_policy() {
    let words = mistake(2, &["ask", "--values", "hold,immediate", "-r", "a", "-r", "POLICY"], b"");
    assert!(words.contains("--requester \"POLICY\": nobody asks as POLICY"), "{words}");
    // A record made elsewhere is refused by the library, with the place.
    let record = b"\x01\x02\x00\x01h\x00\x01i\x01\x00\x06POLICY\x00\x00";
    let output = run(&["batch", "-"], &[&[0, 0, 0, record.len() as u8], &record[..]].concat());
    assert_eq!(status(&output), 3);
    assert!(printed(&output).contains("refused 10 at 11: a requester is named POLICY"), "{}", printed(&output));
    let other = run(&["ask", "--values", "hold,immediate", "-r", "policy"], b"");
    assert_eq!(status(&other), 0);
}
