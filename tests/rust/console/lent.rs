//! Memory that is lent to a call: it stands between canaries, at an address that changes, and is looked at when it is given back.

use std::ops::Deref;
use std::process;
use std::sync::atomic::{AtomicUsize, Ordering};

pub const CANARY: usize = 64;
const SHIFTS: usize = 16;

static LENDINGS: AtomicUsize = AtomicUsize::new(0);

/// Stops the program: what it tells must not have happened.
pub fn stop(what: &str) -> ! {
    eprintln!("canaries: {what}");
    process::exit(1)
}

/// Neighbouring bytes of a canary differ, and the same byte differs from one lending to the next.
pub fn canary(pattern: usize) -> [u8; CANARY] {
    let mut bytes = [0; CANARY];
    for (i, byte) in bytes.iter_mut().enumerate() {
        *byte = (pattern.wrapping_mul(59) + i * 7 + 1) as u8;
    }
    bytes
}

pub struct Lent {
    memory: Vec<u8>,
    from: usize,
    length: usize,
    pattern: usize,
    /// What an input was.
    kept: Option<Vec<u8>>,
}

impl Lent {
    pub fn output(bytes: &[u8]) -> Lent {
        let pattern = LENDINGS.fetch_add(1, Ordering::Relaxed);
        // 11 goes to all the shifts in turn.
        let shift = pattern * 11 % SHIFTS;
        let mut memory = vec![0; shift];
        for part in [&canary(pattern), bytes, &canary(pattern + 1)] {
            memory.extend_from_slice(part);
        }
        Lent {
            memory,
            from: shift + CANARY,
            length: bytes.len(),
            pattern,
            kept: None,
        }
    }

    pub fn input(bytes: &[u8]) -> Lent {
        let mut lent = Lent::output(bytes);
        lent.kept = Some(bytes.to_vec());
        lent
    }

    pub fn lend(&mut self) -> &mut [u8] {
        &mut self.memory[self.from..self.from + self.length]
    }

    fn damage(&self) -> Option<&'static str> {
        let (before, behind) = (&self.memory[..self.from], &self.memory[self.from..]);
        if !before.ends_with(&canary(self.pattern)) {
            return Some("a byte before lent memory has changed");
        }
        if behind[self.length..] != canary(self.pattern + 1) {
            return Some("a byte behind lent memory has changed");
        }
        match &self.kept {
            Some(kept) if kept[..] != behind[..self.length] => Some("an input has changed"),
            _ => None,
        }
    }
}

impl Deref for Lent {
    type Target = [u8];

    fn deref(&self) -> &[u8] {
        &self.memory[self.from..self.from + self.length]
    }
}

/// Nothing that is lent goes without being looked at.
impl Drop for Lent {
    fn drop(&mut self) {
        if let Some(what) = self.damage() {
            stop(what);
        }
    }
}
