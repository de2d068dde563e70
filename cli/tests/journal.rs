//! Answers kept in a file: round trips, refusals, cuts, and an answer that isn't kept and
//! so isn't printed. `src/journal/cuts.rs` has every cut of the writes themselves.

mod common;

use std::fs::{self, File};
use std::path::Path;
use std::process::{Child, Command, Stdio};
use std::thread::sleep;
use std::time::Duration;

use common::{file, mistake, plain, printed, run, status, told, PROGRAM};
use lampsickle::journal;

/// A page with these answers.
fn page(size: usize, answers: &[&[u8]]) -> Vec<u8> {
    let mut page = journal::empty(size).expect("a page");
    answers.iter().for_each(|answer| journal::append(&mut page, answer).expect("room"));
    page
}

/// A name in the folder for tests that no file bears.
fn fresh(name: &str) -> String {
    let path = Path::new(env!("CARGO_TARGET_TMPDIR")).join(name);
    let _ = fs::remove_file(&path);
    path.display().to_string()
}

fn bytes(file: &str) -> Vec<u8> {
    fs::read(file).expect("a file")
}

/// What a command prints that comes to 0 and has nothing to tell.
fn done(arguments: &[&str], input: &[u8]) -> String {
    let output = run(arguments, input);
    assert_eq!((status(&output), told(&output)), (0, String::new()), "{arguments:?}");
    printed(&output)
}

/// The words of a mistake, behind which a file is as it was.
fn untouched(expected: i32, arguments: &[&str], file: &str) -> String {
    let before = fs::read(file).ok();
    let words = mistake(expected, arguments, b"");
    assert_eq!(fs::read(file).ok(), before, "{words}");
    words
}

const POLICY: &str = "Authorizer: \"POLICY\"\nLicensees: \"a\"\n";
const ANSWER: &str = "class immediate\nrank 1 of 2\nrounds 2\nreached 2\n";

#[test]
fn round_trip() {
    let name = fresh("round-trip.journal");
    assert_eq!(done(&["journal", "create", &name, "--size", "64"], b""), "");
    assert_eq!(bytes(&name), page(64, &[]));
    assert_eq!(done(&["journal", "list", &name], b""), "");
    assert_eq!(done(&["journal", "append", &name, "--text", "rank 1"], b"not read"), "");
    let any = b"\0\xff\"\\\n\x01 \xc3\xa9\\n";
    assert_eq!(done(&["journal", "append", &name], any), "");
    assert_eq!(done(&["journal", "append", "--text=-", "--", &name], b""), "");
    assert_eq!(bytes(&name), page(64, &[b"rank 1", any, b"-"]));
    let listed = "0 \"rank 1\"\n1 \"\\x00\\xff\\\"\\\\\\n\\x01 é\\\\n\"\n2 \"-\"\n";
    assert_eq!(done(&["journal", "list", &name], b""), listed);
    assert_eq!(done(&["journal", "recover", &name], b""), "3 entries kept, 0 bytes cleared\n");
    assert_eq!(bytes(&name), page(64, &[b"rank 1", any, b"-"]));
}

#[test]
fn sizes() {
    for (size, fine) in [("15", false), ("16", true), ("65535", true), ("65536", false), ("1e3", false), ("", false)] {
        let name = fresh("sizes.journal");
        let arguments = ["journal", "create", &name, &format!("--size={size}")];
        match fine {
            true => assert_eq!((done(&arguments, b"").len(), bytes(&name).len().to_string()), (0, size.into())),
            false => assert!(untouched(2, &arguments, &name).contains("not a number of bytes from 16 to 65535")),
        }
    }
    let name = file("there.journal", "anything");
    assert!(untouched(4, &["journal", "create", &name, "--size", "64"], &name).contains("File exists"));
    assert!(mistake(4, &["journal", "create", "/nowhere/x", "--size", "64"], b"").contains("/nowhere/x: No such file"));
}

#[test]
fn usage() {
    let name = file("usage.journal", page(64, &[]));
    let wrong = |more: &[&str]| untouched(2, &[&["journal"], more].concat(), &name);
    assert!(wrong(&[]).contains("journal takes one of create, append, list, recover\n"));
    assert!(wrong(&["apend", &name]).contains("and not \"apend\""));
    assert!(wrong(&["create", "x"]).contains("needs --size N"));
    assert!(wrong(&["create", "x", "--size", "16", "--size", "17"]).contains("--size is given twice"));
    assert!(wrong(&["append", &name, "--text", "a", "--text", "b"]).contains("--text is given twice"));
    assert!(wrong(&["append", &name, "--text", "-x"]).contains("write --text=-x"));
    assert!(wrong(&["append", &name, "--size", "64"]).contains("journal append: there is no option --size"));
    assert!(wrong(&["list", &name, "--text", "a"]).contains("journal list: there is no option --text"));
    assert!(wrong(&["recover", &name, "--damaged=1"]).contains("--damaged takes no value"));
    for part in ["create", "append", "list", "recover"] {
        assert!(wrong(&[part]).contains("takes one FILE"));
        assert!(wrong(&[part, &name, &name]).contains("takes one FILE"));
        assert!(wrong(&[part, "-"]).contains("a journal is a file"));
        assert!(done(&["journal", part, "--help"], b"").starts_with("NAME\n"));
    }
    assert!(wrong(&["list", "--", "-"]).contains("a journal is a file"));
}

/// Files of a test's own that no answer can be kept in, with the status and the words.
fn unfit(test: &str) -> Vec<(String, i32, &'static str)> {
    let file = |name: &str, content: &[u8]| file(&format!("{test}-{name}.journal"), content);
    let mut cut = page(64, &[b"one"]);
    journal::append_cut(&mut cut, b"two", 4).expect("room");
    vec![
        (fresh(&format!("{test}-missing.journal")), 4, "No such file"),
        (env!("CARGO_TARGET_TMPDIR").into(), 4, "a journal is a regular file"),
        ("/dev/null".into(), 4, "a journal is a regular file"),
        (file("short", &page(64, &[])[..15]), 4, "15 bytes, but a journal's file keeps the size"),
        (file("empty", b""), 4, "0 bytes, but"),
        (file("long", &[&page(65_535, &[])[..], b"\0"].concat()), 4, "more than 65535 bytes"),
        (file("version", &[0; 64]), 3, "refused 2 at 0: the first byte isn't 1"),
        (file("cut", &cut), 3, "refused 3 at 0: behind the last finished entry"),
        (file("full", &page(16, &[b"0123456789"])), 3, "refused 9 at 0: 2 bytes left"),
    ]
}

#[test]
fn refusals() {
    for (name, expected, words) in unfit("refusals") {
        let told = untouched(expected, &["journal", "append", &name, "--text", "x"], &name);
        assert!(told.starts_with(&format!("lampsickle: {name}: {words}")), "{told}");
        for part in ["list", "recover"].into_iter().filter(|_| !words.contains("3 at") && !words.contains("9 at")) {
            assert!(untouched(expected, &["journal", part, &name], &name).contains(words), "{part} {name}");
        }
    }
    let name = file("empty-answer.journal", page(64, &[]));
    assert!(untouched(3, &["journal", "append", &name], &name).contains("refused 5 at 0: an empty answer"));
    assert!(untouched(3, &["journal", "append", &name, "--text="], &name).contains("refused 5 at 0"));
}

/// The room is used to its last byte, and an answer without end is refused.
#[test]
fn the_room_left() {
    let name = file("room.journal", page(65_535, &[]));
    let fits = vec![1; 65_531];
    for over in [vec![1; 65_532], vec![1; 65_536], vec![1; 200_000]] {
        assert!(mistake(3, &["journal", "append", &name], &over).contains("refused 9 at 0: 65534 bytes left"));
    }
    assert_eq!(done(&["journal", "append", &name], &fits), "");
    assert_eq!(bytes(&name), page(65_535, &[&fits]));
    assert!(mistake(3, &["journal", "append", &name], b"x").contains("refused 9 at 0: 0 bytes left"));
}

#[test]
fn an_answer_that_is_kept_and_printed() {
    let (policy, name) = (file("kept.kn", POLICY), file("kept.journal", page(400, &[])));
    let ask = |more: &[&str]| run(&plain(&[&["--local", &policy, "--journal", &name], more].concat()), b"");
    let (first, second) = (ask(&[]), ask(&["--json"]));
    assert_eq!(printed(&first), ANSWER);
    assert_eq!(bytes(&name), page(400, &[&first.stdout, &second.stdout]));
    // Whatever its class, and whatever is set aside.
    let broken = file("kept-broken.kn", "Authorizer: POLICY\n");
    let third = run(&["ask", "--values", "no,yes", "-r", "b", "-l", &broken, "--journal", &name, "--strict"], b"");
    assert_eq!(status(&third), 5);
    assert_eq!(bytes(&name), page(400, &[&first.stdout, &second.stdout, &third.stdout]));
    let listed = printed(&run(&["journal", "list", &name], b""));
    assert!(listed.starts_with("0 \"class immediate\\nrank 1 of 2\\nrounds 2\\nreached 2\\n\"\n1 \"{\\\"answered"));
}

#[test]
fn an_answer_that_is_not_kept_is_not_printed() {
    let policy = file("unkept.kn", POLICY);
    for (name, expected, words) in unfit("unkept") {
        for more in [&[][..], &["--json"], &["--require", "immediate", "--strict"]] {
            let arguments = plain(&[&["--local", &policy, "--journal", &name], more].concat());
            let told = untouched(expected, &arguments, &name);
            assert_eq!(told.lines().count(), 1, "{told}");
            assert!(told.contains(&format!("--journal {name}: {words}")), "{told}");
        }
    }
}

#[test]
fn a_query_that_is_not_asked_keeps_nothing() {
    let name = file("unasked.journal", page(400, &[]));
    untouched(4, &plain(&["--local", "/nowhere/x", "--journal", &name]), &name);
    untouched(2, &plain(&["--attribute", "x", "--journal", &name]), &name);
    let record = fresh("unasked.record");
    assert!(untouched(2, &plain(&["--record", &record, "--journal", &name]), &name).contains("--journal keeps nothing"));
    assert!(!Path::new(&record).exists());
    assert!(mistake(2, &plain(&["--journal", "-"]), b"").contains("--journal: a journal is a file"));
}

/// A page as a cut behind each store of an append leaves it: listed, refused, recovered.
#[test]
fn every_cut_of_an_append() {
    let (before, answer) = (page(40, &[b"one"]), b"rank \x01 1");
    let with = page(40, &[b"one", answer]);
    for stores in 0..=answer.len() + 3 {
        let mut cut = before.clone();
        journal::append_cut(&mut cut, answer, stores).expect("room");
        let name = file("cut-append.journal", &cut);
        let expected = if stores == answer.len() + 3 { &with } else { &before };
        let listed = run(&["journal", "list", &name], b"");
        let count = journal::answers(expected).count();
        assert_eq!((status(&listed), printed(&listed).lines().count()), (0, count), "{stores}");
        if cut != *expected {
            assert!(told(&listed).contains("unfinished at 7: "), "{}", told(&listed));
            assert!(untouched(3, &["journal", "append", &name, "--text", "x"], &name).contains("journal recover"));
        }
        let words = done(&["journal", "recover", &name], b"");
        assert!(words.contains("kept, ") && bytes(&name) == *expected, "{stores} {words}");
        assert_eq!(done(&["journal", "append", &name, "--text", "x"], b""), "");
    }
}

#[test]
fn every_cut_of_a_recovery() {
    let before = page(32, &[b"one"]);
    let mut torn = before.clone();
    journal::append_cut(&mut torn, b"\x01\x01\x01\x01\x01", 7).expect("room");
    for stores in 0..=before.len() {
        let mut cut = torn.clone();
        journal::recover_cut(&mut cut, stores).expect("a journal");
        let name = file("cut-recovery.journal", &cut);
        assert!(done(&["journal", "recover", &name], b"").starts_with("1 entry kept, "));
        assert_eq!(bytes(&name), before, "{stores}");
    }
}

/// Finished entries behind a damaged one are cleared only if that is said.
#[test]
fn damage_is_told_and_left() {
    let mut damaged = page(64, &[b"one", b"two", b"three"]);
    damaged[12] = 0;
    let name = file("damaged.journal", &damaged);
    let listed = run(&["journal", "list", &name], b"");
    assert_eq!((status(&listed), printed(&listed)), (4, "0 \"one\"\n".into()));
    assert!(told(&listed).contains("damaged at 7: \"\\x00\\x03two\\x00\\x00\\x05three\\x01\""), "{}", told(&listed));
    assert!(untouched(4, &["journal", "recover", &name], &name).contains("recover --damaged"));
    assert_eq!(done(&["journal", "recover", "--damaged", &name], b""), "1 entry kept, 11 bytes cleared\n");
    assert_eq!(bytes(&name), page(64, &[b"one"]));
}

/// A program that may write only so many blocks of a file; what goes over the limit fails,
/// or ends the program.
fn limited(blocks: usize, survives: bool, arguments: &[&str]) -> std::process::Output {
    let trap = if survives { "trap '' XFSZ; " } else { "" };
    let script = format!("{trap}ulimit -c 0; ulimit -f {blocks}; exec \"$@\"");
    let mut shell = Command::new("sh");
    shell.args(["-c", &script, "sh", PROGRAM]).args(arguments).stdin(Stdio::null());
    shell.output().expect("a shell")
}

/// The system fails within an append, or the program is ended there.
#[test]
fn a_write_that_fails() {
    let policy = file("fails.kn", POLICY);
    let one = vec![b'1'; 470];
    let before = page(4_096, &[&one]);
    let text = "2".repeat(2_000);
    for (blocks, survives) in [(0, true), (1, true), (0, false), (1, false)] {
        let name = file("fails.journal", &before);
        let output = limited(blocks, survives, &["journal", "append", &name, "--text", &text]);
        assert!(output.stdout.is_empty() && output.status.code() == survives.then_some(4), "{output:?}");
        if survives {
            assert!(told(&output).contains("the answer may be kept or not"), "{}", told(&output));
        }
        assert_eq!(bytes(&name).len(), before.len());
        assert_eq!(bytes(&name) == before, blocks == 0, "{blocks} {survives}");
        assert!(done(&["journal", "recover", &name], b"").starts_with("1 entry kept, "));
        assert_eq!(bytes(&name), before);
        // An answer of a query crosses the limit as well.
        let before = page(4_096, &[&one, b"17 bytes more ..."]);
        let name = file("fails.journal", &before);
        let ask = plain(&["--local", &policy, "--journal", &name]);
        let output = limited(blocks, survives, &ask);
        assert!(output.stdout.is_empty() && output.status.code() == survives.then_some(4), "{output:?}");
        assert!(done(&["journal", "recover", &name], b"").starts_with("2 entries kept, ") && bytes(&name) == before);
    }
    let name = fresh("fails-new.journal");
    let output = limited(1, true, &["journal", "create", &name, "--size", "4096"]);
    assert!(status(&output) == 4 && told(&output).contains("the file isn't finished: remove it"), "{output:?}");
    assert!(mistake(3, &["journal", "append", &name, "--text", "x"], b"").contains("refused 2 at 0"));
}

fn started(arguments: &[&str]) -> Child {
    let mut command = Command::new(PROGRAM);
    command.args(arguments).stdin(Stdio::null()).stdout(Stdio::null()).stderr(Stdio::null());
    command.spawn().expect("the program")
}

#[test]
fn many_processes_at_once() {
    let name = file("many.journal", page(1_000, &[]));
    let texts: Vec<String> = (0..12).map(|number| format!("answer {number}")).collect();
    let all: Vec<Child> = texts.iter().map(|text| started(&["journal", "append", &name, "--text", text])).collect();
    all.into_iter().for_each(|mut child| assert!(child.wait().expect("its end").success()));
    let page = bytes(&name);
    let mut kept: Vec<&[u8]> = journal::answers(&page).collect();
    let mut expected: Vec<&[u8]> = texts.iter().map(|text| text.as_bytes()).collect();
    kept.sort_unstable();
    expected.sort_unstable();
    assert_eq!(kept, expected);
}

#[test]
fn a_lock_is_waited_for() {
    let name = file("locked.journal", page(64, &[]));
    let held = File::open(&name).expect("a file");
    held.lock_shared().expect("a lock");
    assert_eq!(done(&["journal", "list", &name], b""), "");
    let mut child = started(&["journal", "append", &name, "--text", "x"]);
    sleep(Duration::from_millis(300));
    assert!(child.try_wait().expect("a state").is_none() && bytes(&name) == page(64, &[]));
    held.unlock().expect("no lock");
    assert!(child.wait().expect("its end").success());
    assert_eq!(bytes(&name), page(64, &[b"x"]));
}

/// Behind the lock the name is another file's: nothing is written to either.
#[test]
fn a_file_that_is_replaced() {
    let name = file("replaced.journal", page(64, &[]));
    let held = File::open(&name).expect("a file");
    held.lock().expect("a lock");
    let child = {
        let mut command = Command::new(PROGRAM);
        command.args(["journal", "append", &name, "--text", "x"]).stdin(Stdio::null());
        command.stdout(Stdio::piped()).stderr(Stdio::piped()).spawn().expect("the program")
    };
    sleep(Duration::from_millis(300));
    fs::rename(file("replacing.journal", page(64, &[b"y"])), &name).expect("a rename");
    held.unlock().expect("no lock");
    let output = child.wait_with_output().expect("its output");
    assert!(status(&output) == 4 && told(&output).contains("another file has come to bear this name"), "{output:?}");
    assert_eq!(bytes(&name), page(64, &[b"y"]));
}
