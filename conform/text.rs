//! The schedule text: docs/TEXT.md.

/// A type of numbers: its bits, and whether it has a sign.
#[derive(Clone, Copy)]
pub struct Type {
    pub bits: u32,
    pub signed: bool,
}

pub const U64: Type = Type { bits: 64, signed: false };
const U32: Type = Type { bits: 32, signed: false };

impl Type {
    pub fn show(self, bits: u128) -> String {
        match (self.signed, self.bits) {
            (true, 64) => (bits as i64).to_string(),
            (true, _) => (bits as i128).to_string(),
            _ => bits.to_string(),
        }
    }

    /// The number's bits, where it is one of this type.
    pub fn read(self, word: &str) -> Option<u128> {
        let digits = if self.signed { word.strip_prefix('-') } else { None };
        let (negative, digits) = (digits.is_some(), digits.unwrap_or(word));
        if digits.is_empty() || !digits.bytes().all(|digit| digit.is_ascii_digit()) {
            return None;
        }
        let value = digits.trim_start_matches('0');
        let value: u128 = if value.is_empty() { 0 } else { value.parse().ok()? };
        let most = if self.signed { (1 << (self.bits - 1)) - 1 + negative as u128 } else { u128::MAX >> (128 - self.bits) };
        (value <= most).then_some(if negative { value.wrapping_neg() } else { value })
    }
}

pub struct Kind {
    pub name: &'static str,
    /// The type of its first line's value, where it has one.
    pub value: Option<Type>,
    /// That of its calls' numbers.
    pub number: Type,
    /// Its calls, and how many numbers each has.
    pub calls: &'static [(&'static str, usize)],
    /// The names of its further words.
    pub words: &'static [&'static str],
}

const LOCKS: &[(&str, usize)] = &[("read_lock", 0), ("try_read_lock", 0), ("write_lock", 0), ("try_write_lock", 0), ("unlock", 0)];
const ATOMIC: &[(&str, usize)] = &[
    ("load", 0),
    ("store", 1),
    ("swap", 1),
    ("compare_exchange", 2),
    ("compare_exchange_weak", 2),
    ("fetch_add", 1),
    ("fetch_sub", 1),
    ("fetch_and", 1),
    ("fetch_or", 1),
    ("fetch_xor", 1),
    ("fetch_nand", 1),
    ("fetch_max", 1),
    ("fetch_min", 1),
    ("fetch_update", 0),
];

const fn kind(name: &'static str, value: Option<Type>, calls: &'static [(&'static str, usize)], words: &'static [&'static str]) -> Kind {
    Kind { name, value, number: U64, calls, words }
}

const fn atomic(name: &'static str, bits: u32, signed: bool) -> Kind {
    let number = Type { bits, signed };
    Kind { name, value: Some(number), number, calls: ATOMIC, words: &["counter"] }
}

pub const KINDS: &[Kind] = &[
    kind("mutex", None, &[("lock", 0), ("try_lock", 0), ("unlock", 0)], &[]),
    kind("spin", None, &[("lock", 0), ("blocking_lock", 0), ("try_lock", 0), ("unlock", 0)], &[]),
    kind("semaphore", Some(U64), &[("value", 0), ("post", 1), ("start_wait", 0), ("try_wait", 0)], &[]),
    kind("barrier", Some(U32), &[("start_wait", 0)], &[]),
    kind("rwreader", None, LOCKS, &[]),
    kind("rwwriter", None, LOCKS, &["counter"]),
    kind(
        "condvar",
        None,
        &[("lock", 0), ("try_lock", 0), ("unlock", 0), ("notify_one", 0), ("notify_all", 0), ("start_wait", 0)],
        &["waiters", "value"],
    ),
    kind("once", None, &[("call_once", 0), ("is_completed", 0)], &[]),
    kind("lazy", Some(U64), &[("force", 0)], &[]),
    atomic("atomic_u64", 64, false),
    atomic("atomic_u128", 128, false),
    atomic("atomic_i64", 64, true),
    atomic("atomic_i128", 128, true),
];

impl Kind {
    pub fn is_atomic(&self) -> bool {
        self.name.starts_with("atomic")
    }

    pub fn gives_back(&self, call: &str) -> bool {
        call == "unlock" || self.name == "condvar" && call == "start_wait"
    }

    pub fn locks(&self, call: &str) -> bool {
        call.ends_with("lock") && call != "unlock"
    }
}

pub type Fault = &'static str;

pub enum Line {
    Begin(&'static str, [u128; 2]),
    Go(u64),
    Run,
    Continue,
    Abort,
    Choice(Option<u128>),
}

/// The first line: the object, its parties and its value.
pub fn first_line(words: &[&str]) -> Result<(&'static Kind, usize, u128), Fault> {
    let kind = words.first().and_then(|name| KINDS.iter().find(|kind| kind.name == *name)).ok_or("no object")?;
    if words.len() != 2 + kind.value.is_some() as usize {
        return Err("bad line");
    }
    let parties = U64.read(words[1]).filter(|parties| (1..=64).contains(parties)).ok_or("bad number")?;
    let value = kind.value.map_or(Some(0), |number| number.read(words[2])).ok_or("bad number")?;
    Ok((kind, parties as usize, value))
}

/// A later line, which has words: the party's number, and what it says.
pub fn later_line(kind: &Kind, words: &[&str]) -> Result<(u64, Line), Fault> {
    let what = *words.get(1).ok_or("bad line")?;
    let call = kind.calls.iter().find(|call| call.0 == what);
    let numbers = match what {
        "go" => 0..=1,
        "run" | "wait" | "abort" | "none" => 0..=0,
        "some" => 1..=1,
        _ => call.map(|call| call.1..=call.1).ok_or("bad line")?,
    };
    if !numbers.contains(&(words.len() - 2)) {
        return Err("bad line");
    }
    let party = U64.read(words[0]).ok_or("bad number")? as u64;
    let number = if what == "go" { U64 } else { kind.number };
    let mut n = [0; 2];
    for (at, word) in words[2..].iter().enumerate() {
        n[at] = number.read(word).ok_or("bad number")?;
    }
    let line = match what {
        "go" if words.len() == 2 => Line::Go(1),
        "go" if (1..=100_000).contains(&n[0]) => Line::Go(n[0] as u64),
        "go" => return Err("bad number"),
        "run" => Line::Run,
        "wait" => Line::Continue,
        "abort" => Line::Abort,
        "none" => Line::Choice(None),
        "some" => Line::Choice(Some(n[0])),
        _ => Line::Begin(call.ok_or("bad line")?.0, n),
    };
    Ok((party, line))
}
