//! Random schedule texts, which the code that they are made with plays without a fault, but for the last line of a few.
use crate::play::{At, Player};
use crate::text::Kind;
use words::words::Grant;

/// splitmix64
pub struct Random(u64);

impl Random {
    /// The same numbers for the same seed, object and text.
    pub fn new(seed: u64, name: &str, text: u64) -> Random {
        let mixed = name.bytes().fold(seed, |mixed, byte| (mixed ^ byte as u64).wrapping_mul(0x100_0000_01b3));
        Random(mixed ^ text.wrapping_mul(0xd134_2543_de82_ef95))
    }

    fn below(&mut self, n: u64) -> u64 {
        self.0 = self.0.wrapping_add(0x9e37_79b9_7f4a_7c15);
        let mixed = (self.0 ^ self.0 >> 30).wrapping_mul(0xbf58_476d_1ce4_e5b9);
        let mixed = (mixed ^ mixed >> 27).wrapping_mul(0x94d0_49bb_1331_11eb);
        (mixed ^ mixed >> 31) % n
    }

    fn pick<T: Copy>(&mut self, of: &[T]) -> T {
        of[self.below(of.len() as u64) as usize]
    }

    fn percent(&mut self, n: u64) -> bool {
        self.below(100) < n
    }

    /// The bits of a number at an end of its type, or small.
    fn number(&mut self, kind: &Kind) -> u128 {
        let ends: [u128; 8] = [0, 1, 2, 5, (1 << 63) - 1, 1 << 63, (1 << 64) - 1, (1 << 64) - 2];
        let wide: [u128; 4] = [1 << 64, (1 << 127) - 1, 1 << 127, u128::MAX];
        let bits = if kind.number.bits == 128 && self.percent(50) { self.pick(&wide) } else { self.pick(&ends) };
        let bits = if kind.number.signed && self.percent(30) { bits.wrapping_neg() } else { bits };
        kind.number.read(&kind.number.show(bits)).unwrap_or(0)
    }
}

/// A text under way: its lines, and the code that plays them.
struct Draft<'a> {
    random: &'a mut Random,
    player: Player,
    lines: Vec<String>,
    /// How far a call may go at once.
    most: u64,
}

impl Draft<'_> {
    fn begin(&mut self, p: usize) {
        let kind = self.player.kind;
        let calls: Vec<_> = kind.calls.iter().filter(|call| self.player.refusal(p, call.0).is_none()).collect();
        if self.player.parties[p].at != At::Idle || calls.is_empty() {
            return;
        }
        // Often one that may wait, or stands at its choice closure.
        let waits = |call: &&&(&str, usize)| matches!(call.0, "lock" | "read_lock" | "write_lock" | "start_wait" | "fetch_update");
        let waiting: Vec<_> = calls.iter().filter(waits).copied().collect();
        let often = self.random.percent(30) && !waiting.is_empty();
        let &(call, numbers) = self.random.pick(if often { &waiting } else { &calls });
        let mut n = [0; 2];
        let mut line = format!("{} {call}", p + 1);
        for n in &mut n[..numbers] {
            *n = if call == "post" { self.random.pick(&[0, 1, 1, 1, 2, 3, u64::MAX as u128]) } else { self.random.number(kind) };
            line += &format!(" {}", kind.number.show(*n));
        }
        self.player.begin(p, call, n).expect("it may begin");
        self.lines.push(line);
    }

    fn go(&mut self, p: usize, most: u64) {
        if self.player.parties[p].at != At::Steps {
            return;
        }
        let made = self.player.grant(p, Grant::Steps(most.min(self.most)));
        self.lines.push(if made == 1 { format!("{} go", p + 1) } else { format!("{} go {made}", p + 1) });
    }

    fn run(&mut self, p: usize) {
        let lines = self.lines.len();
        self.go(p, self.most);
        if self.lines.len() > lines && self.player.parties[p].at != At::Steps {
            self.lines.pop();
            self.lines.push(format!("{} run", p + 1));
        }
    }

    fn answer(&mut self, p: usize, aborts: bool) {
        let (grant, line) = match self.player.parties[p].at {
            At::Waits if aborts => (Grant::Abort, "abort".into()),
            At::Waits => (Grant::Continue, "wait".into()),
            _ if aborts => (Grant::Choice(None), "none".into()),
            _ => {
                let choice = self.random.number(self.player.kind);
                (Grant::Choice(Some(choice)), format!("some {}", self.player.kind.number.show(choice)))
            }
        };
        self.player.grant(p, grant);
        self.lines.push(format!("{} {line}", p + 1));
    }
}

/// The lines of a text of this object, of which at most so many are random.
pub fn text(kind: &'static Kind, random: &mut Random, most_lines: u64) -> Vec<String> {
    let parties = random.pick(&[1, 2, 2, 2, 3, 3, 3, 3, 4, 4, 5, 64]);
    let value = match kind.name {
        "barrier" => random.pick(&[0, 1, 2, 2, 2, 3, 3, 4, u32::MAX as u128]),
        "semaphore" => random.pick(&[0, 0, 0, 1, 1, 2, 3, u64::MAX as u128]),
        _ => random.number(kind),
    };
    let first = kind.value.map_or(String::new(), |number| format!(" {}", number.show(value)));
    let spins = !kind.is_atomic() && !["spin", "once", "lazy"].contains(&kind.name);
    let mut draft = Draft {
        player: Player::new(kind, parties, value),
        lines: vec![format!("{} {parties}{first}", kind.name)],
        most: if spins { 30_000 } else { 40 },
        random,
    };
    // Of a hundred moves so many run to an answer or a closure, and so many come to about the end of the spins.
    let (runs, longs) = draft.random.pick(&[(45, 7), (20, 10), (10, 0), (4, 0), (60, 15), (30, 30)]);
    let unlocks_at_once = draft.random.percent(30);
    let busy = parties.min(4);
    // Some begin with a call that is about there, or with one that another comes between.
    let (all, few, spun) = (u64::MAX, 1 + draft.random.below(3), 9_996 + draft.random.below(10));
    let opening: &[(usize, u64)] = match draft.random.below(8) {
        0 if spins && busy > 2 => &[(0, all), (1, all), (2, spun), (0, all)],
        1 if spins && busy > 1 => &[(0, all), (1, spun)],
        2 if spins && busy > 1 => &[(0, all), (1, spun), (0, all)],
        3 if busy > 1 => &[(0, all), (1, few), (0, all)],
        4 if busy > 1 => &[(1, few), (0, all)],
        _ => &[],
    };
    for &(p, steps) in opening {
        draft.begin(p);
        if steps == all { draft.run(p) } else { draft.go(p, steps) }
    }
    for _ in 0..2 + draft.random.below(most_lines) {
        let p = draft.random.below(busy as u64) as usize;
        match draft.player.parties[p].at {
            At::Idle => draft.begin(p),
            At::Waits | At::Chooses => {
                let aborts = draft.random.percent(50);
                draft.answer(p, aborts)
            }
            At::Steps if draft.random.percent(runs) || unlocks_at_once && draft.player.parties[p].call == "unlock" => draft.run(p),
            At::Steps => {
                let steps = if spins && draft.random.percent(longs) {
                    9_994 + draft.random.below(12)
                } else {
                    draft.random.pick(&[1, 1, 1, 1, 2, 2, 3, 5])
                };
                draft.go(p, steps)
            }
        }
    }
    // In half of them all go home.
    for p in (0..busy).cycle().take(if draft.random.percent(50) { 3 * busy } else { 0 }) {
        match draft.player.parties[p].at {
            At::Idle if draft.player.parties[p].hold.is_some() => {
                draft.player.begin(p, "unlock", [0; 2]).expect("it holds");
                draft.lines.push(format!("{} unlock", p + 1));
                draft.run(p);
            }
            At::Idle => {}
            At::Steps => draft.run(p),
            At::Waits | At::Chooses => draft.answer(p, true),
        }
    }
    if draft.random.percent(4) {
        let call = draft.random.pick(kind.calls).0;
        let what = draft.random.pick(&["go", "run", "wait", "abort", "none", "go 0", "go 2", "some 1", "nothing", call]);
        draft.lines.push(format!("{} {what}", draft.random.below(parties as u64 + 1) + 1));
    }
    draft.lines
}
