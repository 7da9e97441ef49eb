// The comparison as an ordinary Rust program, to measure the proved one against: it sweeps the same blocks and splits the same
// cubes at the same places. Rules in play are index lists on one stack of indices. It compares the first list of old.img with that
// of new.img, from header 0 on and up to 1,000 runs, and writes what the bench program writes; on standard error it says how many
// blocks it swept and how many cubes it looked at. It does not check the images.
use std::convert::TryInto;
use std::fmt;
use std::io::{BufWriter, Write};

struct List {
    care: Vec<u128>,
    value: Vec<u128>,
    decision: Vec<u16>,
}

// A word of an image: 8 bytes in format 1, and 16 in format 2.
fn word(bytes: &[u8]) -> u128 {
    match bytes.len() {
        8 => u64::from_le_bytes(bytes.try_into().unwrap()) as u128,
        _ => u128::from_le_bytes(bytes.try_into().unwrap()),
    }
}

// The width of an image and its first list.
fn load(path: &str) -> (u32, List) {
    let bytes = std::fs::read(path).unwrap();
    let size = if bytes[0] == 1 { 8 } else { 16 };
    let from = u32::from_le_bytes(bytes[4..8].try_into().unwrap()) as usize;
    let count = u16::from_le_bytes(bytes[8..10].try_into().unwrap()) as usize;
    let rule_size = 2 * size + 2;
    let mut list = List { care: vec![], value: vec![], decision: vec![] };
    for rule in bytes[from..from + rule_size * count].chunks(rule_size) {
        list.care.push(word(&rule[..size]));
        list.value.push(word(&rule[size..2 * size]));
        list.decision.push(u16::from_le_bytes(rule[2 * size..].try_into().unwrap()));
    }
    (bytes[1] as u32, list)
}

// The rules of `live` that meet the cube, up to the first that covers it, onto the stack.
fn narrow(list: &List, stack: &mut Vec<u16>, live: std::ops::Range<usize>, care: u128, value: u128) -> std::ops::Range<usize> {
    let from = stack.len();
    for at in live {
        let i = stack[at];
        let (c, v) = (list.care[i as usize], list.value[i as usize]);
        if v & care == value & c {
            stack.push(i);
            if c & care == c {
                break;
            }
        }
    }
    from..stack.len()
}

fn answer(list: &List, live: &[u16], miss: u16, header: u128) -> u16 {
    for &i in live {
        if header & list.care[i as usize] == list.value[i as usize] {
            return list.decision[i as usize];
        }
    }
    miss
}

// How many of the first rules of both sides leave the same outside the cube.
fn alike(old: &List, new: &List, ol: &[u16], nl: &[u16], care: u128) -> (usize, bool) {
    let mut p = 0;
    while p < ol.len() && p < nl.len() {
        let (i, j) = (ol[p] as usize, nl[p] as usize);
        if old.decision[i] != new.decision[j] || old.care[i] | care != new.care[j] | care || old.value[i] | care != new.value[j] | care {
            break;
        }
        p += 1;
        if old.care[i] & care == old.care[i] {
            return (p, true);
        }
    }
    (p, false)
}

// Whether the rules of one side from place p on, up to one that covers the cube, all decide d, or a miss counts as d.
fn only(list: &List, live: &[u16], miss: u16, p: usize, care: u128, d: u16) -> bool {
    for &i in &live[p..] {
        if list.decision[i as usize] != d {
            return false;
        }
        if list.care[i as usize] & care == list.care[i as usize] {
            return true;
        }
    }
    d == miss
}

// Whether both sides give every header of the cube the same decision from place p on.
fn settled(old: &List, new: &List, ol: &[u16], nl: &[u16], om: u16, nm: u16, p: usize, care: u128) -> bool {
    if p == ol.len() {
        return only(new, nl, nm, p, care, om);
    }
    if p == nl.len() {
        return only(old, ol, om, p, care, nm);
    }
    let d = old.decision[ol[p] as usize];
    only(new, nl, nm, p, care, d) && only(old, ol, om, p, care, d)
}

// Adds the rules that care to the count of each place: bit p of counts[k] is bit k of the count of place p.
fn tally(list: &List, live: &[u16], places: u128, counts: &mut [u128; 12]) {
    for &i in live {
        let mut carry = list.care[i as usize] & places;
        for count in counts.iter_mut() {
            let both = *count & carry;
            *count ^= carry;
            carry = both;
            if carry == 0 {
                break;
            }
        }
    }
}

fn wanted(old: &List, new: &List, ol: &[u16], nl: &[u16], p: usize, care: u128) -> u128 {
    let mut places = 0;
    if p < ol.len() {
        places |= old.care[ol[p] as usize] & !care;
    }
    if p < nl.len() {
        places |= new.care[nl[p] as usize] & !care;
    }
    if places != 0 {
        let mut counts = [0; 12];
        tally(old, ol, places, &mut counts);
        tally(new, nl, places, &mut counts);
        for count in counts.iter().rev() {
            if places & count != 0 {
                places &= count;
            }
        }
        return places;
    }
    let mut fewest = 129;
    for &i in &ol[..p] {
        let c = old.care[i as usize] & !care;
        if c != 0 && c.count_ones() < fewest {
            fewest = c.count_ones();
            places = c;
        }
    }
    places
}

// The places at which a header that some rule matches may have another value than h; all, as soon as `top` is one of them.
fn loose(list: &List, live: &[u16], h: u128, top: u128) -> u128 {
    let mut places = 0;
    for &i in live {
        places |= !list.care[i as usize] | (list.value[i as usize] ^ h);
        if places & top != 0 {
            return !0;
        }
    }
    places
}

// The places at which a difference may have another value than the difference h: all, where a miss of both is a difference.
fn loose_places(old: &List, new: &List, ol: &[u16], nl: &[u16], om: u16, nm: u16, h: u128, k: u32) -> u128 {
    if om != nm {
        return !0;
    }
    let top = 1 << (k - 1);
    let places = loose(old, ol, h, top);
    if places == !0 {
        return places;
    }
    places | loose(new, nl, h, top)
}

// 2^k - 1: the k lowest bits.
fn ones(k: u32) -> u128 {
    if k == 128 {
        return !0;
    }
    (1 << k) - 1
}

struct Run {
    first: u128,
    last: u128,
    old: u16,
    new: u16,
}

// Both recursions must stay functions of their own, for their calls to be counted. The lists are no part of it: whether one side
// answers the same everywhere is asked of its list and an empty one.
struct Search {
    stack: Vec<u16>,
    start: u128,
    runs: Vec<Run>,
    blocks: u64,
    cubes: u64,
}

impl Search {
    #[inline(never)]
    fn differs(
        &mut self,
        old: &List,
        new: &List,
        ol: std::ops::Range<usize>,
        nl: std::ops::Range<usize>,
        om: u16,
        nm: u16,
        care: u128,
        value: u128,
        seen: bool,
    ) -> Option<u128> {
        self.cubes += 1;
        let top = self.stack.len();
        let ol = narrow(old, &mut self.stack, ol, care, value);
        let nl = narrow(new, &mut self.stack, nl, care, value);
        let found = self.split(old, new, ol, nl, om, nm, care, value, seen);
        self.stack.truncate(top);
        found
    }

    fn split(
        &mut self,
        old: &List,
        new: &List,
        ol: std::ops::Range<usize>,
        nl: std::ops::Range<usize>,
        om: u16,
        nm: u16,
        care: u128,
        value: u128,
        seen: bool,
    ) -> Option<u128> {
        let (o, n) = (&self.stack[ol.clone()], &self.stack[nl.clone()]);
        let (p, covered) = alike(old, new, o, n, care);
        if covered {
            return None;
        }
        if settled(old, new, o, n, om, nm, p, care) {
            return None;
        }
        if !seen && answer(old, o, om, value) != answer(new, n, nm, value) {
            return Some(value);
        }
        if care == !0 {
            return None;
        }
        let want = wanted(old, new, o, n, p, care);
        let place = if want != 0 { 1 << (127 - want.leading_zeros()) } else { 1 << (127 - (!care).leading_zeros()) };
        let low = self.differs(old, new, ol.clone(), nl.clone(), om, nm, care | place, value, true);
        if low.is_some() {
            return low;
        }
        self.differs(old, new, ol, nl, om, nm, care | place, value | place, false)
    }

    // Whether one side answers a, as it does at the cube's value, on the whole cube.
    fn steady(&mut self, list: &List, live: std::ops::Range<usize>, miss: u16, care: u128, value: u128, a: u16) -> bool {
        if only(list, &self.stack[live.clone()], miss, 0, care, a) {
            return true;
        }
        let none = List { care: vec![], value: vec![], decision: vec![] };
        self.differs(list, &none, live, 0..0, miss, a, care, value, true).is_none()
    }

    // The two answers, where the block is one piece. Those at its last header mostly tell that it is not, without a question.
    fn answers(
        &mut self,
        old: &List,
        new: &List,
        ol: std::ops::Range<usize>,
        nl: std::ops::Range<usize>,
        om: u16,
        nm: u16,
        base: u128,
        k: u32,
    ) -> Option<(u16, u16)> {
        if base < self.start {
            return None;
        }
        let (o, n) = (&self.stack[ol.clone()], &self.stack[nl.clone()]);
        let (a, b) = (answer(old, o, om, base), answer(new, n, nm, base));
        if a == b {
            return None;
        }
        if k == 0 {
            return Some((a, b));
        }
        let last = base + ones(k);
        if answer(old, o, om, last) != a || answer(new, n, nm, last) != b {
            return None;
        }
        if self.steady(old, ol, om, !ones(k), base, a) && self.steady(new, nl, nm, !ones(k), base, b) {
            return Some((a, b));
        }
        None
    }

    // Lists the differences of the block of 2^k headers from `base` on. `hint` may name one. The error is the header at which the
    // first run starts that there is no room for. The question comes before the sweep, so that a block without a difference costs
    // no call of it.
    fn part(
        &mut self,
        old: &List,
        new: &List,
        ol: std::ops::Range<usize>,
        nl: std::ops::Range<usize>,
        om: u16,
        nm: u16,
        base: u128,
        k: u32,
        hint: Option<u128>,
    ) -> Result<(), u128> {
        if base + ones(k) < self.start {
            return Ok(());
        }
        let mut found = hint;
        if found.is_none() {
            found = self.differs(old, new, ol.clone(), nl.clone(), om, nm, !ones(k), base, false);
        }
        match found {
            Some(h) => self.sweep(old, new, ol, nl, om, nm, base, k, h),
            None => Ok(()),
        }
    }

    // The same, where h is a difference.
    #[inline(never)]
    fn sweep(
        &mut self,
        old: &List,
        new: &List,
        ol: std::ops::Range<usize>,
        nl: std::ops::Range<usize>,
        om: u16,
        nm: u16,
        base: u128,
        k: u32,
        h: u128,
    ) -> Result<(), u128> {
        self.blocks += 1;
        let top = self.stack.len();
        let ol = narrow(old, &mut self.stack, ol, !ones(k), base);
        let nl = narrow(new, &mut self.stack, nl, !ones(k), base);
        let swept = self.list(old, new, ol, nl, om, nm, base, k, h);
        self.stack.truncate(top);
        swept
    }

    // The same, of rules in play that all meet the block.
    fn list(
        &mut self,
        old: &List,
        new: &List,
        ol: std::ops::Range<usize>,
        nl: std::ops::Range<usize>,
        om: u16,
        nm: u16,
        base: u128,
        k: u32,
        h: u128,
    ) -> Result<(), u128> {
        if let Some((a, b)) = self.answers(old, new, ol.clone(), nl.clone(), om, nm, base, k) {
            return self.piece(Run { first: base, last: base + ones(k), old: a, new: b });
        }
        if k == 0 {
            return Ok(());
        }
        let places = loose_places(old, new, &self.stack[ol.clone()], &self.stack[nl.clone()], om, nm, h, k);
        let size = 128 - (places & ones(k)).leading_zeros();
        if size < k {
            return self.part(old, new, ol, nl, om, nm, h & !ones(size), size, Some(h));
        }
        let half = base + (1 << (k - 1));
        let (low, high) = if h < half { (Some(h), None) } else { (None, Some(h)) };
        self.part(old, new, ol.clone(), nl.clone(), om, nm, base, k - 1, low)?;
        self.part(old, new, ol, nl, om, nm, half, k - 1, high)
    }

    // Lists a piece: it lengthens the last run, or is a run of its own.
    fn piece(&mut self, piece: Run) -> Result<(), u128> {
        if let Some(run) = self.runs.last_mut() {
            if run.last + 1 == piece.first && run.old == piece.old && run.new == piece.new {
                run.last = piece.last;
                return Ok(());
            }
        }
        if self.runs.len() == 1000 {
            return Err(piece.first);
        }
        self.runs.push(piece);
        Ok(())
    }
}

// An answer as it is written.
struct Answer(u16);

impl fmt::Display for Answer {
    fn fmt(&self, f: &mut fmt::Formatter) -> fmt::Result {
        match self.0 {
            65535 => f.write_str("none"),
            decision => decision.fmt(f),
        }
    }
}

fn main() {
    let ((width, old), (_, new)) = (load("old.img"), load("new.img"));
    let (m, n) = (old.care.len(), new.care.len());
    let stack = (0..m as u16).chain(0..n as u16).collect();
    let mut search = Search { stack, start: 0, runs: vec![], blocks: 0, cubes: 0 };
    let swept = search.part(&old, &new, 0..m, m..m + n, 65535, 65535, 0, width, None);

    let stdout = std::io::stdout();
    let mut out = BufWriter::new(stdout.lock());
    writeln!(out, "width {}", width).unwrap();
    for run in &search.runs {
        writeln!(out, "{} {} {} {}", run.first, run.last, Answer(run.old), Answer(run.new)).unwrap();
    }
    match swept {
        Ok(()) => writeln!(out, "runs {}", search.runs.len()).unwrap(),
        Err(header) => writeln!(out, "more {}", header).unwrap(),
    }
    out.flush().unwrap();
    eprintln!("{} blocks, {} cubes", search.blocks, search.cubes);
}
