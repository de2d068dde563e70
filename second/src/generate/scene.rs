//! The names and values that the parts of one query share.

use crate::draft::Draft;
use crate::limits;
use crate::random::Random;

/// Attribute names; some look like keywords or labels.
const NAMES: [&str; 12] =
    ["app_domain", "x", "y", "dollars", "true", "False", "name", "X", "a_1", "Comment", "POLICY", "n0"];

/// Strings that are compared, looked up and converted.
const WORDS: [&[u8]; 27] = [
    b"",
    b"x",
    b"y",
    b"true",
    b"SPEND",
    b"dollars",
    b"1",
    b"-1.5",
    b"0",
    b"2147483647",
    b"2147483648",
    b"-2147483648.5",
    b"1e3",
    b"07.0",
    b"9.75",
    b"16777217",
    b"8388608.5",
    b"-12345678901234567.8",
    b"123456789012345678.9",
    b"a",
    b"ab",
    b"abc",
    b"a\tb\nc\r\x0c",
    b"\xff\x01\x7f",
    b"_VALUES",
    b"_MAX_TRUST",
    b"\"\\#",
];

/// What the texts of a query refer to.
pub struct Scene {
    pub values: Vec<Vec<u8>>,
    pub principals: Vec<Vec<u8>>,
    pub requesters: Vec<Vec<u8>>,
    pub attributes: Vec<(Vec<u8>, Vec<u8>)>,
}

impl Scene {
    pub fn new(random: &mut Random) -> Self {
        let mut scene = Self {
            values: values(random),
            principals: principals(random),
            requesters: Vec::new(),
            attributes: Vec::new(),
        };
        for _ in 0..random.between(1, 3) {
            let requester = random.pick(&scene.principals).clone();
            scene.requesters.push(requester);
        }
        for name in NAMES {
            if random.once_in(2) {
                let value = scene.word(random);
                scene.attributes.push((name.into(), value));
            }
        }
        if random.once_in(3) {
            let principal = random.pick(&scene.principals).clone();
            scene.attributes.push((b"who".to_vec(), principal));
            scene.attributes.push((b"which".to_vec(), b"who".to_vec()));
        }
        scene
    }

    /// A draft of the query without assertions.
    pub fn draft(&self, random: &mut Random) -> Draft {
        let mut draft = Draft {
            values: self.values.clone(),
            requesters: self.requesters.clone(),
            attributes: self.attributes.clone(),
            assertions: Vec::new(),
        };
        // Names that no text reads.
        for index in 0..random.below(4) {
            let value = self.word(random);
            draft.attributes.push((format!("unread{index}").into(), value));
        }
        if random.once_in(20) {
            self.fill(random, &mut draft);
        }
        draft
    }

    /// As many requesters and attributes as a query may have.
    fn fill(&self, random: &mut Random, draft: &mut Draft) {
        while draft.requesters.len() < limits::REQUESTERS.most {
            let length = random.between(1, limits::REQUESTER_BYTES.most);
            draft.requesters.push(vec![b'r'; length]);
        }
        while draft.attributes.len() < limits::ATTRIBUTES.most {
            // Long names with a common beginning.
            let name = format!("{}{}", "n".repeat(random.between(1, 300)), draft.attributes.len());
            draft.attributes.push((name.into(), self.word(random)));
        }
    }

    pub fn word(&self, random: &mut Random) -> Vec<u8> {
        match random.below(12) {
            0 => random.pick(&self.values).clone(),
            1 => vec![b'l'; random.between(1, 2_048)],
            2 => random.pick(&self.principals).clone(),
            _ => random.pick(&WORDS).to_vec(),
        }
    }

    /// A name that is perhaps an attribute, perhaps reserved, perhaps unset.
    pub fn name(&self, random: &mut Random) -> Vec<u8> {
        const RESERVED: [&str; 6] = ["_MIN_TRUST", "_MAX_TRUST", "_VALUES", "_ACTION_AUTHORIZERS", "_0", "_max_trust"];
        match random.below(8) {
            0 => random.pick(&RESERVED).as_bytes().to_vec(),
            1 | 2 => random.pick(&NAMES).as_bytes().to_vec(),
            _ if self.attributes.is_empty() => b"x".to_vec(),
            _ => random.pick(&self.attributes).0.clone(),
        }
    }

    /// POLICY often, else one of the principals.
    pub fn authorizer(&self, random: &mut Random) -> Vec<u8> {
        if random.once_in(3) {
            b"POLICY".to_vec()
        } else {
            random.pick(&self.principals).clone()
        }
    }
}

/// Two to sixteen distinct values, some with commas or bytes above 127.
pub fn values(random: &mut Random) -> Vec<Vec<u8>> {
    let count = if random.once_in(2) { random.between(2, 4) } else { random.between(2, 16) };
    let spell = |index: usize| match index % 4 {
        0 => format!("v{index}").into_bytes(),
        1 => format!("Approve,{index}").into_bytes(),
        2 => vec![0x80 + index as u8],
        _ => format!("value {index} \\ \"\n").into_bytes(),
    };
    (0..count).map(spell).collect()
}

fn principals(random: &mut Random) -> Vec<Vec<u8>> {
    const SPELLINGS: [&[u8]; 16] = [
        b"a",
        b"b",
        b"c",
        b"A",
        b"RSA:abc123",
        b"rsa:ABC123",
        b"rsa:abc123",
        b"dsa-hex:0aF",
        b"DSA-Hex:0Af",
        b"dsa-hex",
        b"DSA:feed1234",
        b"policy",
        b"two words",
        b"\x01\xff",
        b"tab\there",
        b"line\nbreak",
    ];
    (0..random.between(1, 8)).map(|_| random.pick(&SPELLINGS).to_vec()).collect()
}
