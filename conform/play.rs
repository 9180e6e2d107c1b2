//! Plays a schedule text on the Rust crate, and prints what sync-play and sync-trace print.
use crate::object::Object;
use crate::text::{Fault, Kind, Line, first_line, later_line};
use words::words::{Act, Call, Grant, Stand, Step};

#[derive(Clone, Copy, PartialEq, Eq, Debug)]
pub enum At {
    Idle,
    Steps,
    Waits,
    Chooses,
}

#[derive(Clone, Copy, PartialEq, Eq)]
pub enum Hold {
    Whole,
    Reads,
    Writes,
}

pub struct Party {
    pub at: At,
    pub hold: Option<Hold>,
    pub call: &'static str,
    under_way: Option<Call>,
}

struct Row {
    line: usize,
    party: usize,
    /// The act, the words, the holds, and how the call then stands.
    cells: [String; 4],
    times: u64,
}

pub struct Player {
    pub kind: &'static Kind,
    pub parties: Vec<Party>,
    object: &'static Object,
    /// Its words by address, 0 for a first one that no call has come to, in the order in which calls come to them; and what they hold.
    words: Vec<(usize, u64)>,
    data: Option<u128>,
    failed: u64,
    line: usize,
    rows: Vec<Row>,
}

impl Player {
    pub fn new(kind: &'static Kind, parties: usize, value: u128) -> Player {
        // It stays, since threads of calls under way may outlive the text.
        let object: &'static Object = Box::leak(Box::new(Object::new(kind, parties, value)));
        let party = || Party { at: At::Idle, hold: None, call: "", under_way: None };
        Player {
            kind,
            parties: (0..parties).map(|_| party()).collect(),
            object,
            words: vec![(object.first_word(), if kind.name == "semaphore" { value as u64 } else { 0 })],
            data: object.data(),
            failed: 0,
            line: 1,
            rows: Vec::new(),
        }
    }

    /// Which word it is, from 0.
    fn place(&mut self, address: usize) -> usize {
        if self.words[0].0 == 0 {
            self.words[0].0 = address;
        }
        self.words.iter().position(|word| word.0 == address).unwrap_or_else(|| {
            self.words.push((address, 0));
            self.words.len() - 1
        })
    }

    fn named(&self, place: usize) -> String {
        if place == 0 { String::new() } else { format!(" {}", self.kind.words[place - 1]) }
    }

    fn words(&self) -> String {
        let mut shown = self.words[0].1.to_string();
        match &self.data {
            Some(data) => shown += &format!(" value {}", self.kind.number.show(*data)),
            None => {
                for (at, name) in self.kind.words.iter().enumerate() {
                    shown += &format!(" {name} {}", self.words.get(at + 1).map_or(0, |word| word.1));
                }
            }
        }
        shown
    }

    fn holds(&self) -> String {
        let holds = self.parties.iter().enumerate().filter_map(|(p, party)| match party.hold? {
            Hold::Whole => Some(format!("{}", p + 1)),
            Hold::Reads => Some(format!("{} reads", p + 1)),
            Hold::Writes => Some(format!("{} writes", p + 1)),
        });
        let holds: Vec<_> = holds.collect();
        if holds.is_empty() { "-".into() } else { holds.join(", ") }
    }

    fn add_row(&mut self, party: usize, act: String, call: String, times: u64) {
        let row = Row { line: self.line, party: party + 1, cells: [act, self.words(), self.holds(), call], times };
        match self.rows.last_mut() {
            Some(last) if (last.line, last.party, &last.cells) == (row.line, row.party, &row.cells) => last.times += times,
            _ => self.rows.push(row),
        }
    }

    /// May this party, which is idle, begin this call? That is the text's own rule: the Rust crate lets anyone unlock.
    pub fn refusal(&self, p: usize, call: &str) -> Option<Fault> {
        match self.parties[p].hold {
            Some(_) if self.kind.locks(call) => Some("holding"),
            None if self.kind.gives_back(call) => Some("no hold"),
            _ => None,
        }
    }

    pub fn begin(&mut self, p: usize, call: &'static str, n: [u128; 2]) -> Result<(), Fault> {
        if self.parties[p].at != At::Idle {
            return Err("busy");
        }
        if let Some(fault) = self.refusal(p, call) {
            return Err(fault);
        }
        let object = self.object;
        let party = &mut self.parties[p];
        (party.at, party.call) = (At::Steps, call);
        party.under_way = Some(Call::begin(move || object.call(p, call, n)));
        let numbers = self.kind.calls.iter().find(|known| known.0 == call).map_or(0, |known| known.1);
        let shown = n[..numbers].iter().map(|n| format!(" {}", self.kind.number.show(*n)));
        self.add_row(p, format!("{call}{}", shown.collect::<String>()), "begins".into(), 1);
        Ok(())
    }

    /// Lets the party's call go on by this, and notes what it did; how many steps it made.
    pub fn grant(&mut self, p: usize, grant: Grant) -> u64 {
        let answer = match grant {
            Grant::Steps(_) => None,
            Grant::Continue => Some("its closure answers Continue".into()),
            Grant::Abort => Some("its closure answers Abort".into()),
            Grant::Choice(None) => Some("its closure answers none".into()),
            Grant::Choice(Some(value)) => Some(format!("its closure answers some {}", self.kind.number.show(value))),
        };
        if let Some(act) = answer {
            self.add_row(p, act, "goes on".into(), 1);
        }
        let (stand, made) = self.parties[p].under_way.as_ref().expect("no call").grant(grant);
        let (at, call) = match stand {
            Stand::GoesOn => (At::Steps, "goes on".into()),
            Stand::Waits(seen) => (At::Waits, format!("waits {seen}")),
            Stand::Chooses(old) => (At::Chooses, format!("chooses {}", self.kind.number.show(old))),
            Stand::Answers(answer) => (At::Idle, answer),
        };
        let mut from = 0;
        while from < made.len() {
            let same = made[from..].iter().take_while(|step| **step == made[from]).count();
            let last = from + same == made.len();
            self.note(p, made[from], same as u64 - last as u64, "goes on");
            if last {
                self.data = self.object.data();
                self.note(p, made[from], 1, &call);
            }
            from += same;
        }
        self.parties[p].at = at;
        if at == At::Idle {
            self.parties[p].under_way = None;
        }
        made.len() as u64
    }

    /// Notes a step that a call made so many times, and how the call then stands.
    fn note(&mut self, p: usize, step: Step, times: u64, call: &str) {
        if times == 0 {
            return;
        }
        let place = if step.word == 0 { 0 } else { self.place(step.word) };
        if step.word != 0 {
            self.words[place].1 = step.after;
        }
        let name = self.named(place);
        if let (Act::StoreHalf { high, put }, Some(data)) = (step.act, &mut self.data) {
            let shift = 64 * high as u32;
            *data = *data & !((u64::MAX as u128) << shift) | (put as u128) << shift;
        }
        let half = |high| if high { "high" } else { "low" };
        let act = match step.act {
            Act::Load(found) => format!("load{name}, found {found}"),
            Act::Store(put) => format!("store{name} {put}"),
            Act::Swap { put, found } => format!("swap{name} in {put}, found {found}"),
            Act::Add { found, put } => format!("add{name}, found {found}, put {put}"),
            Act::Exchange { from, to, found } => {
                let done = if found == from { "done" } else { "failed" };
                format!("exchange{name} {from} for {to}, found {found}, {done}")
            }
            Act::LoadHalf { high, found } => format!("load {}, found {found}", half(high)),
            Act::StoreHalf { high, put } => format!("store {} {put}", half(high)),
            Act::WakeOne => "wake one".into(),
            Act::WakeAll => "wake all".into(),
            Act::ClosureEnds => "its closure ends".into(),
            Act::ReadCell(found) => format!("read the cell, found {found}"),
        };
        let (kind, party) = (self.kind, &mut self.parties[p]);
        match step.act {
            Act::Exchange { from, found, .. } if found != from => self.failed += times,
            // The lock inside an atomic.
            Act::Exchange { to, .. } if kind.is_atomic() && (party.call == "load" || to == u64::MAX) => {
                party.hold = Some(if party.call == "load" { Hold::Reads } else { Hold::Writes });
            }
            Act::Store(_) | Act::Add { .. } if place == 0 && (kind.is_atomic() || kind.gives_back(party.call)) => party.hold = None,
            _ => {}
        }
        if call == "success" && kind.locks(party.call) || kind.name == "condvar" && matches!(call, "success" | "interrupted held") {
            party.hold = Some(match party.call {
                call if call.contains("read") => Hold::Reads,
                call if call.contains("write") => Hold::Writes,
                _ => Hold::Whole,
            });
        }
        self.add_row(p, act, call.into(), times);
    }

    fn play_line(&mut self, p: usize, line: Line) -> Result<(), Fault> {
        let at = self.parties[p].at;
        match line {
            Line::Begin(call, n) => return self.begin(p, call, n),
            Line::Go(_) | Line::Run => {
                let most = if let Line::Go(steps) = line { steps } else { 100_000 };
                let ended = |at| match at {
                    At::Idle => Err("idle"),
                    At::Steps => Ok(()),
                    At::Waits | At::Chooses => Err("waiting"),
                };
                ended(at)?;
                let made = self.grant(p, Grant::Steps(most));
                let at = self.parties[p].at;
                if let Line::Run = line {
                    return if at == At::Steps { Err("step limit") } else { Ok(()) };
                }
                return if made == most { Ok(()) } else { ended(at) };
            }
            Line::Continue if at == At::Waits => self.grant(p, Grant::Continue),
            Line::Abort if at == At::Waits => self.grant(p, Grant::Abort),
            Line::Choice(choice) if at == At::Chooses => self.grant(p, Grant::Choice(choice)),
            _ => return Err("not waiting"),
        };
        Ok(())
    }

    /// What sync-trace prints.
    fn trace(rows: &[Row]) -> String {
        let mut table = vec![["step", "times", "line", "party", "act", "word", "holds", "call"].map(String::from)];
        let mut steps = 0;
        for row in rows {
            let first = steps + 1;
            steps += row.times;
            let (step, times) =
                if row.times == 1 { (first.to_string(), String::new()) } else { (format!("{first}-{steps}"), row.times.to_string()) };
            let [act, words, holds, call] = row.cells.clone();
            table.push([step, times, row.line.to_string(), row.party.to_string(), act, words, holds, call]);
        }
        let width = |column: usize| table.iter().map(|row| row[column].len()).max().unwrap_or(0);
        let widths: Vec<_> = (0..7).map(width).collect();
        let mut shown = String::new();
        for row in &table {
            for (cell, width) in row.iter().zip(&widths) {
                shown += &format!("{cell:width$}  ");
            }
            shown += &row[7];
            shown.push('\n');
        }
        shown
    }

    /// What sync-play prints.
    fn played(&self) -> String {
        let mut shown = String::new();
        for row in &self.rows {
            let [act, _, _, call] = &row.cells;
            if let Some(whom) = act.strip_prefix("wake ") {
                shown += &format!("{} wakes {whom}\n", row.party);
            }
            if call != "begins" && call != "goes on" {
                shown += &format!("{} {call}\n", row.party);
            }
        }
        shown + &format!("word {} failed {}\n", self.words(), self.failed)
    }
}

/// Plays a text: what sync-trace prints of it, what sync-play prints, and its fault.
pub fn play(text: &[u8]) -> [String; 3] {
    let text: String = text.iter().map(|byte| *byte as char).collect();
    let mut player: Option<Player> = None;
    let fault = text.split_inclusive('\n').chain(text.is_empty().then_some("")).enumerate().find_map(|(at, line)| {
        let line = line.strip_suffix("\r\n").or(line.strip_suffix('\n')).unwrap_or(line);
        let words: Vec<&str> = line.split([' ', '\t']).filter(|word| !word.is_empty()).collect();
        let result = match &mut player {
            None => first_line(&words).map(|(kind, parties, value)| player = Some(Player::new(kind, parties, value))),
            Some(_) if words.is_empty() => Ok(()),
            Some(player) => later_line(player.kind, &words).and_then(|(party, line)| {
                if !(1..=player.parties.len() as u64).contains(&party) {
                    return Err("no party");
                }
                player.line = at + 1;
                player.play_line(party as usize - 1, line)
            }),
        };
        result.err().map(|words| format!("line {}: {words}\n", at + 1))
    });
    let trace = Player::trace(player.as_ref().map_or(&[], |player| &player.rows));
    match (fault, player) {
        (None, Some(player)) => [trace, player.played(), String::new()],
        (fault, _) => [trace, String::new(), fault.unwrap_or_default()],
    }
}
