//! `register`: each call and refusal, files of all sorts, and calls at once.

mod common;

use std::collections::BTreeSet;
use std::fs;
use std::os::unix::fs::{symlink, MetadataExt, PermissionsExt};
use std::path::{Path, PathBuf};
use std::process::{Command, Output, Stdio};
use std::thread;
use std::time::{Duration, Instant};

use common::{mistake, printed, run, status, told, PROGRAM};
use lampsickle::register::{Register, BYTES};

/// A folder of its own, and a register's file in it.
struct Port {
    folder: PathBuf,
    file: String,
}

impl Port {
    /// A folder without a register.
    fn bare(name: &str) -> Self {
        let folder = Path::new(env!("CARGO_TARGET_TMPDIR")).join(format!("register-{name}"));
        let _ = fs::remove_dir_all(&folder);
        fs::create_dir_all(&folder).expect("a folder");
        Self { file: folder.join("moves").display().to_string(), folder }
    }

    fn with(name: &str, bytes: &[u8]) -> Self {
        let port = Self::bare(name);
        fs::write(&port.file, bytes).expect("a file");
        port
    }

    fn call(&self, words: &str) -> Output {
        run(&self.words(words), b"")
    }

    fn words<'a>(&'a self, words: &'a str) -> Vec<&'a str> {
        ["register", &self.file].into_iter().chain(words.split_whitespace()).collect()
    }

    /// What a call that is granted prints.
    fn granted(&self, words: &str) -> String {
        let output = self.call(words);
        assert_eq!((status(&output), told(&output)), (0, String::new()), "{words}");
        printed(&output)
    }

    /// The words of a call that ends with this status, prints nothing and changes nothing.
    fn stopped(&self, expected: i32, words: &str) -> String {
        let before = (self.bytes(), self.file_number(), self.names());
        let told = mistake(expected, &self.words(words), b"");
        assert_eq!((self.bytes(), self.file_number()), (before.0, before.1), "{words}: {told}");
        let names: Vec<String> = self.names().into_iter().filter(|name| name != "moves.lock").collect();
        assert_eq!(names, before.2.into_iter().filter(|name| name != "moves.lock").collect::<Vec<_>>());
        told
    }

    fn bytes(&self) -> Option<Vec<u8>> {
        fs::read(&self.file).ok()
    }

    fn file_number(&self) -> Option<u64> {
        fs::symlink_metadata(&self.file).ok().map(|metadata| metadata.ino())
    }

    fn register(&self) -> Register {
        Register::new(&self.bytes().expect("a file")).expect("a register")
    }

    fn names(&self) -> BTreeSet<String> {
        let entries = fs::read_dir(&self.folder).expect("a folder");
        entries.map(|entry| entry.expect("an entry").file_name().into_string().expect("text")).collect()
    }
}

/// A register after some issues.
fn issued(all: &[(u32, u64)]) -> Register {
    let mut register = Register::default();
    all.iter().for_each(|(principal, amount)| register.issue(*principal, *amount).expect("room"));
    register
}

#[test]
fn each_call() {
    let port = Port::bare("calls");
    assert!(port.granted("create").starts_with("created ") && port.register() == Register::default());
    assert_eq!(port.granted("issue 7 20"), "issued 20 moves to 7, added at place 0; 7 holds 20 moves\n");
    assert_eq!(port.granted("issue 9 5"), "issued 5 moves to 9, added at place 1; 9 holds 5 moves\n");
    assert_eq!(port.granted("issue 9 1"), "issued 1 move to 9; 9 holds 6 moves\n");
    assert_eq!(port.granted("pass 7 9 10"), "passed 10 moves from 7 to 9; 7 holds 10 moves, 9 holds 16 moves\n");
    assert_eq!(port.granted("pass 9 9 16"), "passed 16 moves from 9 to itself; 9 holds 16 moves\n");
    assert_eq!(port.granted("spend 7 10"), "spent 10 moves of 7; 7 holds 0 moves\n");
    assert_eq!(port.granted("find 9"), "held yes\nplace 1\nmoves 16\nwork 2\n");
    let all = "place 0 principal 7 moves 0\nplace 1 principal 9 moves 16\n";
    assert_eq!(port.granted("list"), format!("{all}principals 2 of 64\nheld 16\nissued 26\nspent 10\n"));
    assert_eq!(port.granted("remove 7"), "removed 7\n");
    assert_eq!(port.granted("find 7"), "held no\nwork 1\n");
    assert_eq!(
        port.granted("issue 4294967295 1"),
        "issued 1 move to 4294967295, added at place 0; 4294967295 holds 1 move\n"
    );
    assert_eq!(port.names(), BTreeSet::from(["moves".into(), "moves.lock".into()]));
}

/// What stands in the file is what the library makes of the same calls.
#[test]
fn the_file_holds_what_the_library_gives() {
    let port = Port::bare("library");
    port.granted("create");
    let mut register = Register::default();
    for number in 0..30u32 {
        let (principal, amount) = (number * 7 % 5, u64::from(number * 11 % 13));
        let (words, done) = match number % 3 {
            0 => (format!("issue {principal} {amount}"), register.issue(principal, amount)),
            1 => (format!("spend {principal} {amount}"), register.spend(principal, amount)),
            _ => (format!("pass {principal} 0 {amount}"), register.pass(principal, 0, amount)),
        };
        assert_eq!(status(&port.call(&words)), if done.is_ok() { 0 } else { 3 }, "{words}");
        assert_eq!(port.register(), register, "{words}");
    }
    assert!(register.issued() > 50);
}

#[test]
fn each_refusal_of_a_call() {
    let port = Port::with("refusals", issued(&[(7, 20), (9, 5)]).bytes());
    let refused = |words: &str| {
        let told = port.stopped(3, words);
        let rest = told.strip_prefix(&format!("lampsickle: {}: refused ", port.file)).expect("a refusal").to_string();
        rest.strip_suffix("; nothing was changed\n").expect("the end").to_string()
    };
    let range = "but 1 to 1000000 moves are issued, passed or spent at once";
    for call in ["issue 7", "pass 7 9", "spend 7"] {
        for amount in ["0", "1000001", "18446744073709551615"] {
            assert_eq!(refused(&format!("{call} {amount}")), format!("14 at 0: the amount is {amount}, {range}"));
        }
    }
    assert_eq!(refused("pass 8 9 1"), "15 at 0: 8, who is to pass moves on, isn't held");
    assert_eq!(refused("pass 8 8 1"), "15 at 0: 8, who is to pass moves on, isn't held");
    assert_eq!(refused("pass 7 8 1"), "15 at 0: 8, who is to get moves, isn't held: issue moves to it first");
    let neither = "15 at 0: neither 8, who is to pass moves on, nor 3, who is to get them, is held";
    assert_eq!(refused("pass 8 3 1"), neither);
    assert_eq!(refused("spend 8 1"), "15 at 0: 8, who is to spend moves, isn't held");
    assert_eq!(refused("remove 8"), "15 at 0: 8 isn't held");
    assert_eq!(refused("pass 9 7 6"), "16 at 0: 9 holds 5 moves, fewer than 6");
    assert_eq!(refused("spend 9 1000000"), "16 at 0: 9 holds 5 moves, fewer than 1000000");
    let most = "17 at 0: 25 moves ever issued of at most 1000000, so 999975 can still be, and not 999976";
    assert_eq!(refused("issue 7 999976"), most);
    assert_eq!(refused("remove 9"), "19 at 0: 9 holds 5 moves: spend them or pass them on first");
}

#[test]
fn a_full_register() {
    let all: Vec<(u32, u64)> = (0..64).map(|principal| (principal, 1)).collect();
    let port = Port::with("full", issued(&all).bytes());
    let told = port.stopped(3, "issue 64 1");
    assert!(told.contains("refused 18 at 0: 64 isn't held, and 64 others are, the most; all of them hold"), "{told}");
    port.granted("spend 3 1");
    port.granted("spend 60 1");
    let told = port.stopped(3, "issue 64 1");
    assert!(told.contains("these hold no moves and can be removed: 3, 60; nothing was changed"), "{told}");
    port.granted("remove 60");
    assert!(port.granted("issue 64 1").contains("added at place 60"));
}

/// Damaged registers: every change is refused with 20, finding is warned of, and a list
/// shows what there is without what can't be told.
#[test]
fn damaged_registers() {
    let sound = issued(&[(7, 20), (9, 5)]);
    let (mut twice, mut more, mut over) = (*sound.bytes(), *sound.bytes(), *sound.bytes());
    twice[9 + 13 + 4] = 7;
    more[8] = 24;
    over[6] = 16;
    let damages = [
        (twice, "7 stands at several places (0, 1)"),
        (more, "25 moves are held, but 24 were ever issued"),
        (over, "1048601 moves were ever issued, but 1000000 are the most"),
    ];
    for (bytes, words) in damages {
        let port = Port::with("damaged", &bytes);
        for call in ["issue 7 1", "issue 7 0", "pass 8 9 1", "spend 7 1", "remove 8"] {
            let told = port.stopped(3, call);
            assert!(told.contains(&format!("refused 20 at 0: the register is damaged: {words}; nothing")), "{told}");
        }
        let found = port.call("find 7");
        assert_eq!((status(&found), printed(&found)), (0, "held yes\nplace 0\nmoves 20\nwork 1\n".into()));
        assert!(told(&found).contains("warning: ") && told(&found).contains(words), "{}", told(&found));
        let list = port.call("list");
        assert_eq!(status(&list), 3);
        assert!(printed(&list).contains("place 1 principal ") && !printed(&list).contains("spent"));
        assert!(told(&list).contains(&format!("refused 20 at 0: the register is damaged: {words}")));
        assert_eq!(port.bytes(), Some(bytes.to_vec()));
    }
}

#[test]
fn files_that_hold_no_register() {
    let sound = *issued(&[(7, 20)]).bytes();
    let (mut version, mut mark) = (sound, sound);
    (version[0], mark[9 + 13]) = (0, 7);
    let cases: [(&[u8], &str); 6] = [
        (b"", "refused 5 at 0: this is no register: 0 bytes, but a register has 841"),
        (&sound[..BYTES - 1], "refused 5 at 0: this is no register: 840 bytes, but"),
        (&[1; 5_000], "refused 5 at 0: this is no register: more than 841 bytes, but"),
        (&[0; BYTES], "refused 2 at 0: this is no register: its first byte is 0, but that of a register is 1"),
        (&version, "refused 2 at 0: "),
        (&mark, "refused 6 at 22: this is no register: its byte 22 is 7, but there a place is marked by 1, held, or 0"),
    ];
    for (bytes, words) in cases {
        let port = Port::with("none", bytes);
        for call in ["issue 7 1", "pass 7 7 1", "spend 7 0", "remove 8", "find 7", "list"] {
            let told = port.stopped(4, call);
            assert!(told.contains(words), "{told}");
        }
        assert!(port.stopped(4, "create").contains("exists already"));
        // Nothing is left beside what isn't a register.
        assert_eq!(port.names().len(), 1);
    }
}

#[test]
fn the_command_line_is_read_strictly() {
    let port = Port::with("strict", issued(&[(7, 20)]).bytes());
    let wrong = |words: &str, expected: &str| {
        let told = port.stopped(2, words);
        assert!(told.contains(expected), "{words}: {told}");
    };
    for number in ["+1", "1.0", "1_000", "0x7", "1e3", "٣", "7x", "1,000"] {
        wrong(&format!("issue {number} 1"), "a number is written in the digits 0 to 9 alone");
        wrong(&format!("spend 7 {number}"), "a number is written in the digits 0 to 9 alone");
    }
    wrong("issue 7 -1", "\"-1\": a number has no sign");
    wrong("issue -7 1", "\"-7\": a number has no sign");
    wrong("issue 007 1", "principal \"007\": a number is written without zeros before it");
    wrong("issue 7 010", "amount \"010\": a number is written without zeros before it");
    wrong("issue 4294967296 1", "a principal is a number from 0 to 4294967295");
    wrong("find 18446744073709551623", "a principal is a number from 0 to 4294967295");
    wrong("issue 7 18446744073709551616", "this number is too large for any amount");
    wrong("issue 7", "1 word behind issue; write `lampsickle register FILE issue PRINCIPAL AMOUNT`");
    wrong("pass 7 9", "2 words behind pass; write `lampsickle register FILE pass FROM TO AMOUNT`");
    wrong("list 7", "1 word behind list");
    wrong("", "no call; there are create, issue, pass, spend, remove, find, list");
    wrong("grant 7 1", "\"grant\" is no call; there are");
    wrong("issue 7 1 --force", "there is no option --force");
    wrong("list --json", "there is no option --json");
    assert!(mistake(2, &["register"], b"").contains("no FILE"));
    assert!(mistake(2, &["register", &port.file, "find", ""], b"").contains("there is nothing in it"));
    assert!(mistake(2, &["register", "issue", &port.file, "7", "1"], b"").contains("\"issue\" is a call, and FILE"));
    assert_eq!(printed(&run(&["register", "--help"], b"")), printed(&run(&["--help"], b"")));
    assert_eq!(port.names().len(), 1);
}

/// What may be another thing than it seems isn't read, and isn't replaced.
#[test]
fn files_of_other_kinds() {
    let port = Port::with("kinds", issued(&[(7, 20)]).bytes());
    let bytes = port.bytes();
    let at = |name: &str| port.folder.join(name).display().to_string();
    symlink(&port.file, at("link")).expect("a link");
    symlink(at("nowhere"), at("dangling")).expect("a link");
    fs::create_dir(at("folder")).expect("a folder");
    assert!(Command::new("mkfifo").arg(at("pipe")).status().expect("mkfifo").success());
    let names = port.names();
    let kinds = [("link", "a symbolic link"), ("folder", "a directory"), ("pipe", "no regular file")];
    for (name, words) in kinds.into_iter().chain([("dangling", "a symbolic link")]) {
        for call in [&["issue", "7", "1"][..], &["find", "7"], &["list"]] {
            let told = mistake(4, &[&["register", &at(name)], call].concat(), b"");
            assert!(told.contains(&format!("{name}: this is {words}")), "{told}");
        }
        assert!(mistake(4, &["register", &at(name), "create"], b"").contains("exists already"));
    }
    assert!(mistake(4, &["register", "/dev/zero", "list"], b"").contains("no regular file"));
    for (file, words) in [("-", "not on standard input"), ("x.lock", "locks"), ("x/", "directory"), ("..", "directory")]
    {
        for call in ["create", "list"] {
            assert!(mistake(2, &["register", file, call], b"").contains(words), "{file}");
        }
    }
    assert!(mistake(4, &["register", &at("nowhere"), "issue", "7", "1"], b"").contains("No such file"));
    assert!(mistake(4, &["register", &at("nowhere/moves"), "create"], b"").contains("No such file"));
    assert_eq!((port.names(), port.bytes()), (names, bytes));
    // A second name would keep the old register.
    fs::hard_link(&port.file, at("second")).expect("a second name");
    assert!(port.stopped(4, "issue 7 1").contains("several names (hard links)"));
    assert!(port.granted("find 7").contains("moves 20"));
    // A lock that is something else.
    fs::remove_file(at("second")).expect("a file");
    symlink(at("elsewhere"), at("moves.lock")).expect("a link");
    assert!(port.stopped(4, "issue 7 1").contains("the lock "));
    assert!(!port.names().contains("elsewhere"));
}

#[test]
fn permissions_are_kept() {
    let port = Port::bare("permissions");
    port.granted("create");
    let set = |mode: u32| fs::set_permissions(&port.file, fs::Permissions::from_mode(mode)).expect("a file");
    let mode = || fs::metadata(&port.file).expect("a file").mode() & 0o7777;
    for expected in [0o600, 0o640, 0o660, 0o644, 0o666] {
        set(expected);
        port.granted("issue 7 1");
        assert_eq!(mode(), expected);
    }
    // Closed to writing: not meant to change.
    set(0o444);
    assert!(port.stopped(4, "issue 7 1").contains("closed to writing"));
    assert!(port.granted("find 7").contains("moves 5"));
}

#[test]
fn a_register_is_created_once() {
    let port = Port::bare("once");
    let calls: Vec<_> = thread::scope(|scope| {
        let all: Vec<_> = (0..8).map(|_| scope.spawn(|| status(&port.call("create")))).collect();
        all.into_iter().map(|call| call.join().expect("a status")).collect()
    });
    assert_eq!(calls.iter().filter(|status| **status == 0).count(), 1, "{calls:?}");
    assert_eq!(calls.iter().filter(|status| **status == 4).count(), 7, "{calls:?}");
    assert_eq!((port.register(), port.names().len()), (Register::default(), 2));
    port.granted("issue 7 1");
    assert!(port.stopped(4, "create").contains("exists already, and create replaces nothing"));
}

/// Of calls at once none is lost, and whoever reads meanwhile finds a register.
#[test]
fn calls_at_once() {
    let (port, others, each) = (Port::bare("at-once"), 8, 20);
    port.granted("create");
    thread::scope(|scope| {
        for principal in 0..others {
            let port = &port;
            scope.spawn(move || {
                for _ in 0..each {
                    port.granted(&format!("issue {principal} 3"));
                    port.granted(&format!("spend {principal} 1"));
                    port.granted("list");
                }
            });
        }
    });
    let register = port.register();
    assert_eq!((register.issued(), register.held()), (others * each * 3, u128::from(others * each * 2)));
    assert!(register.places().all(|held| held.moves == each * 2) && register.places().count() == others as usize);
    assert_eq!(port.names().len(), 2);
}

/// The status of an issue that is killed after some time; none where it had not ended.
fn cut_short(port: &Port, after: Duration) -> Option<i32> {
    let mut command = Command::new(PROGRAM);
    let mut child = command.args(port.words("issue 7 1")).stdout(Stdio::null()).spawn().expect("the program");
    thread::sleep(after);
    child.kill().expect("a process");
    child.wait().expect("its end").code()
}

/// Processes killed at any time leave the old or the new register, and what they leave
/// besides does no harm.
#[test]
fn killed_calls() {
    let port = Port::bare("killed");
    let start = Instant::now();
    port.granted("create");
    let whole = start.elapsed();
    let (mut done, mut killed, mut calls) = (0, 0, 0);
    while done < 20 || killed < 60 {
        calls += 1;
        assert!(calls < 3_000, "{done} {killed}");
        match cut_short(&port, whole * (calls % 100) / 40) {
            Some(0) => done += 1,
            Some(status) => panic!("status {status}"),
            None => killed += 1,
        }
        let issued = port.register().issued();
        assert!((done..=done + killed).contains(&issued), "{done} {killed} {issued}");
    }
    fs::write(port.folder.join("moves.1-0.lampsickle-new"), b"half a regis").expect("a file");
    let before = port.register().issued();
    port.granted("issue 7 1");
    assert_eq!(port.register().issued(), before + 1);
}

/// Where what was done can't be said, the words say that it was done.
#[test]
fn an_output_that_is_full() {
    let port = Port::bare("output");
    port.granted("create");
    let full = fs::OpenOptions::new().write(true).open("/dev/full").expect("a device");
    let mut command = Command::new(PROGRAM);
    let output = command.args(port.words("issue 7 1")).stdout(full).output().expect("the program");
    assert_eq!(status(&output), 4);
    assert!(told(&output).contains("the call was granted, and "), "{}", told(&output));
    assert_eq!(port.register().issued(), 1);
}
