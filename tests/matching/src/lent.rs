//! One call of the library and one of the reference on the same bytes, and every difference between them.

use reference::random::Random;
use reference::reply::Reply;
use reference::rules::Rules;

/// The reference with the requests that the library has.
pub const RULES: Rules = Rules {
    requests: terminal::REQUESTS,
};

/// One call in the library and in the reference.
pub struct Pair {
    pub name: &'static str,
    pub library: terminal::Call,
    pub reference: fn(&[u8], &mut [u8]) -> Reply,
}

pub const BUILD: Pair = Pair {
    name: "fe_build",
    library: terminal::fe_build,
    reference: |links, index| reference::fast::build(RULES, links, index, &mut []),
};

pub const READ: Pair = Pair {
    name: "fe_read",
    library: terminal::fe_read,
    reference: |index, links| reference::index::read_back(RULES, index, links, &mut []),
};

/// Bytes to be lent, in the middle of others that no call may touch. All that is not given is random.
pub struct Lent {
    pub bytes: Vec<u8>,
    pub from: usize,
    pub to: usize,
}

impl Lent {
    pub fn new(random: &mut Random, length: usize) -> Lent {
        let from = random.within(16..=80);
        let to = from + length;
        let mut bytes = vec![0; to + random.within(16..=80)];
        let whole = random.one_in(4).then(|| random.pick(&[0, 0xFF]));
        for eight in bytes.chunks_mut(8) {
            let drawn = whole.map_or_else(|| random.number(), |byte| u64::from_ne_bytes([byte; 8]));
            eight.copy_from_slice(&drawn.to_le_bytes()[..eight.len()]);
        }
        Lent { bytes, from, to }
    }

    pub fn holding(random: &mut Random, given: &[u8]) -> Lent {
        let mut lent = Lent::new(random, given.len());
        lent.bytes[lent.from..lent.to].copy_from_slice(given);
        lent
    }

    /// The slice as C is lent it: where it begins and how long it is.
    pub fn lend(&mut self) -> terminal::Slice {
        let whole = self.bytes.as_mut_ptr();
        (unsafe { whole.add(self.from) }, self.to - self.from)
    }

    /// Where this first differs from what it should be.
    pub fn differs(&self, right: &[u8]) -> Option<String> {
        let at = (0..right.len()).find(|&at| self.bytes[at] != right[at])?;
        let part = match at {
            _ if at < self.from => format!("{} before the slice", self.from - at),
            _ if at >= self.to => format!("{} after the slice", at - self.to + 1),
            _ => format!("{} in the slice", at - self.from),
        };
        Some(format!(
            "byte {part} is {:02x}, should be {:02x}",
            self.bytes[at], right[at]
        ))
    }
}

/// The reference's reply as C gets it.
pub fn four_numbers(reply: Reply) -> terminal::Reply {
    let (refusal, value, second, third) = match reply {
        Reply::Answered(value) => (0, value, 0, 0),
        Reply::Two(value, second) => (0, value, second, 0),
        Reply::Three(value, second, third) => (0, value, second, third),
        Reply::Refused { number, place } => (number.into(), place, 0, 0),
    };
    terminal::Reply {
        refusal,
        value,
        second,
        third,
    }
}

/// Makes the call with so much room. Gives what the reference wrote, if it wrote, or the first difference.
pub fn compare(
    pair: &Pair,
    random: &mut Random,
    input: &[u8],
    room: usize,
) -> Result<Option<Vec<u8>>, String> {
    let mut given = Lent::holding(random, input);
    let mut buffer = Lent::new(random, room);
    let given_before = given.bytes.clone();
    let mut right = buffer.bytes.clone();

    let expected = (pair.reference)(input, &mut right[buffer.from..buffer.to]);
    let (from, from_len) = given.lend();
    let (to, to_len) = buffer.lend();
    let reply = unsafe { (pair.library)(from, from_len, to, to_len) };

    let wanted = four_numbers(expected);
    let fault = |what: String| Err(format!("{}, {room} bytes lent: {what}", pair.name));
    if reply != wanted {
        return fault(format!("reply {reply:?}, should be {wanted:?}"));
    }
    if let Some(text) = given.differs(&given_before) {
        return fault(format!("lent to be read: {text}"));
    }
    if let Some(text) = buffer.differs(&right) {
        return fault(format!("lent to be written: {text}"));
    }
    let written = buffer.from..buffer.from + wanted.value as usize;
    Ok((wanted.refusal == 0).then(|| right[written].to_vec()))
}

/// Compares a call on one input, with rooms of every kind. Gives the result, if there is one, or the first difference.
pub fn compare_all(
    pair: &Pair,
    random: &mut Random,
    input: &[u8],
) -> Result<Option<Vec<u8>>, String> {
    const ROOM: usize = terminal::INDEX_MAX;
    let result = compare(pair, random, input, ROOM)?;
    let Some(bytes) = &result else {
        for room in [0, random.within(1..=100), random.below(ROOM)] {
            compare(pair, random, input, room)?;
        }
        return Ok(None);
    };
    let length = bytes.len();
    for room in [
        length,
        length - 1,
        length + 1,
        random.below(length),
        length + random.within(2..=200),
    ] {
        compare(pair, random, input, room)?;
    }
    Ok(result)
}
