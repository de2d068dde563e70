//! Records: each refusal at the first and last place it can stand at, each
//! limit at its last good and first bad value, and truncation after every byte.

use second::draft::Draft;
use second::print::PAGE;
use second::{answer, limits, Outcome};

fn refused(record: &[u8]) -> (u8, usize) {
    let mut page = [0x5a; PAGE];
    let outcome = answer(record, &mut page);
    if outcome.number != 0 {
        let refusal = Outcome { number: outcome.number, place: outcome.place, ..Outcome::default() };
        assert_eq!(outcome, refusal);
        assert_eq!(page, [0x5a; PAGE], "a refusal writes nothing");
    }
    (outcome.number, outcome.place)
}

fn draft_refused(draft: &Draft) -> (u8, usize) {
    refused(&draft.record())
}

/// A draft of 65,535 bytes whose last bytes are an assertion's text.
fn longest() -> Draft {
    let mut draft = Draft::plain();
    let text = vec![b'#'; limits::TEXT_BYTES.most];
    while draft.record().len() + 3 + text.len() <= limits::RECORD_BYTES {
        draft = draft.local(&text);
    }
    let left = limits::RECORD_BYTES - draft.record().len() - 3;
    draft.local(vec![b'#'; left])
}

/// A draft with every group, and the places of its parts in the record.
fn full() -> Draft {
    Draft::plain()
        .requester("b")
        .attribute("x", "1")
        .attribute("Y_9", "")
        .assertion(2, "Authorizer: \"b\"\nLicensees: \"a\"")
        .assertion(1, "Authorizer: \"POLICY\"\nLicensees: \"b\"")
}

#[test]
fn number_1() {
    let longest = longest().record();
    assert_eq!(longest.len(), 65_535);
    assert_eq!(refused(&longest), (0, 0));
    assert_eq!(refused(&vec![1; 65_536]), (1, 0));
    assert_eq!(refused(&vec![2; 65_536]), (1, 0));
    assert_eq!(refused(&[longest, vec![0]].concat()), (1, 0));
}

#[test]
fn number_2() {
    assert_eq!(refused(&[]), (2, 0));
    for version in (0..=255).filter(|&version| version != 1) {
        assert_eq!(refused(&[version]), (2, 0));
        assert_eq!(refused(&vec![version; 65_535]), (2, 0));
    }
}

#[test]
fn number_3() {
    assert_eq!(refused(&[1]), (3, 1));
    let short = Draft::plain().record();
    assert_eq!(refused(&[&short[..], &[0]].concat()), (3, short.len()));
    // The last place: a record of full length whose last field doesn't fit.
    let mut long = longest();
    long.assertions.push((1, Vec::new()));
    let mut record = long.record();
    record.truncate(limits::RECORD_BYTES);
    assert_eq!(refused(&record), (3, 65_535));
    // One byte left over at the end of a record of full length.
    let mut long = longest();
    long.assertions.last_mut().unwrap().1.pop();
    let record = [long.record(), vec![7]].concat();
    assert_eq!(record.len(), 65_535);
    assert_eq!(refused(&record), (3, 65_534));
}

#[test]
fn number_4() {
    let values = |count: u8| (0..count).fold(Draft::default(), |draft, value| draft.value([value + 1])).requester("a");
    assert_eq!(draft_refused(&values(0)), (4, 1));
    assert_eq!(draft_refused(&values(1)), (4, 1));
    assert_eq!(draft_refused(&values(2)), (0, 0));
    assert_eq!(draft_refused(&values(16)), (0, 0));
    assert_eq!(draft_refused(&values(17)), (4, 1));

    let requesters = |count| (0..count).fold(Draft::default().value("0").value("1"), |draft, _| draft.requester("a"));
    assert_eq!(draft_refused(&requesters(0)), (4, 8));
    assert_eq!(draft_refused(&requesters(1)), (0, 0));
    assert_eq!(draft_refused(&requesters(8)), (0, 0));
    assert_eq!(draft_refused(&requesters(9)), (4, 8));

    let attributes =
        |count: usize| (0..count).fold(Draft::plain(), |draft, index| draft.attribute(format!("x{index}"), "v"));
    assert_eq!(draft_refused(&attributes(0)), (0, 0));
    assert_eq!(draft_refused(&attributes(32)), (0, 0));
    assert_eq!(draft_refused(&attributes(33)), (4, 23));

    let assertions = |count| (0..count).fold(Draft::plain(), |draft, _| draft.local("#"));
    assert_eq!(draft_refused(&assertions(0)), (0, 0));
    assert_eq!(draft_refused(&assertions(200)), (0, 0));
    for count in 201..=255 {
        assert_eq!(draft_refused(&assertions(count)), (4, 24), "{count}");
    }

    // The last place: attributes fill the record up to the count.
    let mut draft = filled(limits::RECORD_BYTES - 1);
    assert_eq!(draft.record().len(), 65_534);
    draft.assertions = vec![(1, vec![b'#']); 201];
    let record = draft.record();
    assert_eq!(refused(&record[..65_534]), (4, 65_533));
}

/// A draft without assertions whose record has this many bytes, and whose
/// first attribute is "x".
fn filled(bytes: usize) -> Draft {
    const NAME: usize = 1_000;
    let mut draft = Draft::plain().attribute("x", "");
    for index in 0.. {
        let left = bytes - draft.record().len() - 4 - NAME;
        let last = left <= limits::ATTRIBUTE_BYTES.most;
        // What the last attribute takes must be more than its name.
        let value = if last { left } else { (left - NAME - 4).min(limits::ATTRIBUTE_BYTES.most) };
        draft = draft.attribute(format!("{index:x>NAME$}"), vec![b'v'; value]);
        if last {
            break;
        }
    }
    draft
}

#[test]
fn number_5() {
    let value = |length| draft_refused(&Draft::default().value("0").value(vec![b'v'; length]).requester("a"));
    assert_eq!([value(0), value(1), value(64), value(65)], [(5, 5), (0, 0), (0, 0), (5, 5)]);
    let requester = |length| draft_refused(&Draft::default().value("0").value("1").requester(vec![b'r'; length]));
    assert_eq!([requester(0), requester(1), requester(256), requester(257)], [(5, 9), (0, 0), (0, 0), (5, 9)]);
    let name = |length| draft_refused(&Draft::plain().attribute(vec![b'n'; length], ""));
    assert_eq!([name(0), name(1), name(2_048), name(2_049)], [(5, 24), (0, 0), (0, 0), (5, 24)]);
    let value = |length| draft_refused(&Draft::plain().attribute("n", vec![b'v'; length]));
    assert_eq!([value(0), value(2_048), value(2_049)], [(0, 0), (0, 0), (5, 27)]);
    let text = |length| draft_refused(&Draft::plain().local(vec![b'#'; length]));
    assert_eq!([text(0), text(1), text(8_192), text(8_193)], [(5, 26), (0, 0), (0, 0), (5, 26)]);

    // The first place: the first value's length. The last: the last two bytes.
    assert_eq!(refused(&[1, 2, 0, 0]), (5, 2));
    assert_eq!(refused(&[1, 2, 0xff, 0xff]), (5, 2));
    let record = [filled(65_532).record().as_slice(), &[0, 0, 0]].concat();
    let mut record = record[..65_535].to_vec();
    record[65_531] = 1;
    assert_eq!(refused(&record), (5, 65_533));
}

#[test]
fn number_6() {
    assert_eq!(refused(&[1, 2, 0, 1, 0]), (6, 4));
    assert_eq!(draft_refused(&Draft::default().value("v\0w").value("v").requester("a")), (6, 5));
    assert_eq!(draft_refused(&Draft::default().value("v").value("w").requester("\0")), (6, 11));
    assert_eq!(draft_refused(&Draft::plain().attribute("n", "v\0")), (6, 30));
    for byte in 0..=255u8 {
        let first = byte.is_ascii_alphabetic();
        let later = first || byte.is_ascii_digit() || byte == b'_';
        let expected = |fine, place| if fine { (0, 0) } else { (6, place) };
        assert_eq!(draft_refused(&Draft::plain().attribute([byte], "")), expected(first, 26));
        assert_eq!(draft_refused(&Draft::plain().attribute([b'n', byte], "")), expected(later, 27));
        let value = expected(byte != 0, 29);
        assert_eq!(draft_refused(&Draft::plain().attribute("n", [byte])), value);
    }
    // A text may hold any byte. The last place: the record's last byte.
    assert_eq!(draft_refused(&Draft::plain().local([0])), (0, 0));
    let mut record = filled(65_535 + 1).record();
    record.truncate(65_535);
    record[65_534] = 0;
    assert_eq!(refused(&record), (6, 65_534));
}

#[test]
fn number_7() {
    assert_eq!(refused(&[1, 2, 0, 1, b'v', 0, 1, b'v']), (7, 7));
    assert_eq!(draft_refused(&Draft::plain().attribute("n", "v").attribute("n", "w")), (7, 32));
    // Requesters and attribute values may repeat; case counts.
    assert_eq!(draft_refused(&Draft::plain().requester("a").attribute("n", "v").attribute("N", "v")), (0, 0));
    // Bytes come before repetition, repetition before the value's length.
    assert_eq!(refused(&[1, 2, 0, 1, b'v', 0, 1, 0]), (6, 7));
    let record = Draft::plain().attribute("n", "v").attribute("n", "").record();
    assert_eq!(refused(&record[..33]), (7, 32));
    // The last place: a name whose last byte ends the record.
    let mut record = filled(65_533).attribute("x", "").record();
    record.truncate(65_535);
    assert_eq!(refused(&record), (7, 65_534));
}

#[test]
fn number_8() {
    for standing in 0..=255 {
        let expected = if standing > 2 { (8, 25) } else { (0, 0) };
        assert_eq!(draft_refused(&Draft::plain().assertion(standing, "#")), expected);
    }
    let first = Draft::default().value("0").value("1").requester("a").assertion(3, "#");
    assert_eq!(draft_refused(&first), (8, 14));
    // The last place: the record's last byte.
    let mut record = filled(65_534).record();
    record[65_533] = 1;
    record.push(3);
    assert_eq!(refused(&record), (8, 65_534));
}

#[test]
fn number_9() {
    let record = full().record();
    for size in 0..20 {
        let mut page = vec![0x33; size];
        let outcome = answer(&record, &mut page);
        if size < 9 {
            assert_eq!(outcome, Outcome { number: 9, ..Outcome::default() });
            assert_eq!(page, vec![0x33; size]);
        } else {
            assert_eq!((outcome.number, outcome.rank, outcome.rounds, outcome.reached), (0, 1, 2, 3));
            assert_eq!(page[..9], [1, 0, 6, 0, 0, 0, 0, 0, 0]);
            assert_eq!(page[9..], vec![0x33; size - 9]);
        }
    }
    // Any other refusal comes before it.
    assert_eq!(answer(&[1], &mut []), Outcome { number: 3, place: 1, ..Outcome::default() });
}

#[test]
fn truncation() {
    let record = full().record();
    assert_eq!(refused(&record), (0, 0));
    let starts = field_starts(&full());
    for length in 0..record.len() {
        let expected = match length {
            0 => (2, 0),
            _ => (
                3,
                *starts
                    .iter()
                    .rev()
                    .find(|&&(start, size)| start <= length && length < start + size)
                    .map(|(start, _)| start)
                    .unwrap(),
            ),
        };
        assert_eq!(refused(&record[..length]), expected, "{length}");
    }
}

/// Where each field of a record starts, and its size.
fn field_starts(draft: &Draft) -> Vec<(usize, usize)> {
    let mut sizes = vec![1, 1];
    draft.values.iter().for_each(|value| sizes.extend([2, value.len()]));
    sizes.push(1);
    draft.requesters.iter().for_each(|requester| sizes.extend([2, requester.len()]));
    sizes.push(1);
    draft.attributes.iter().for_each(|(name, value)| sizes.extend([2, name.len(), 2, value.len()]));
    sizes.push(1);
    draft.assertions.iter().for_each(|(_, text)| sizes.extend([1, 2, text.len()]));
    let mut starts = Vec::new();
    sizes.iter().fold(0, |start, &size| {
        starts.push((start, size));
        start + size
    });
    starts
}
