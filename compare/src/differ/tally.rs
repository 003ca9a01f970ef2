//! What the streams reached: a comparison says little about what never came.

use super::costs::Costs;
use super::frams::Frams;
use super::limits::Limits;
use super::many::Manys;
use super::rows::Rows;
use super::traffic::Traffic;
use std::fmt;

/// How often each number of 01 was answered.
#[derive(Clone, Copy)]
pub struct Times([u64; 256]);

impl Times {
    pub fn add(&mut self, answer: u8) {
        self.0[usize::from(answer)] += 1;
    }

    pub fn of(&self, answer: u8) -> u64 {
        self.0[usize::from(answer)]
    }
}

impl Default for Times {
    fn default() -> Times {
        Times([0; 256])
    }
}

impl fmt::Display for Times {
    fn fmt(&self, f: &mut fmt::Formatter) -> fmt::Result {
        let came = self.0.iter().enumerate().filter(|(_, &times)| times > 0);
        let words: Vec<String> = came.map(|(n, times)| format!("{n}: {times}")).collect();
        f.write_str(&words.join(", "))
    }
}

#[derive(Default)]
pub struct Tally {
    /// Line bytes fed.
    pub bytes: u64,
    /// The answers to them.
    pub answers: Times,
    /// The answers to commands of each code.
    pub commands: [Times; 32],
    pub set_ups: Times,
    pub packed: Times,
    pub joined: Times,
    /// Lists of files judged: 1 where the list is fit.
    pub judged: Times,
    pub stored: Times,
    /// The answers to lists that were sent after they were judged.
    pub sent: Times,
    /// What was done about the read-only rows.
    pub rows: Rows,
    /// The limits that units had.
    pub limits: Limits,
    /// What was done about the two FRAMs.
    pub frams: Frams,
    /// What CRC commands cost.
    pub costs: Costs,
    /// What befell the two ports.
    pub ports: Traffic,
    /// Calls with many bytes, which are not among the bytes and answers above.
    pub many: Manys,
}

impl Tally {
    /// A byte's answer, and the code of the command if it closed one.
    pub fn byte(&mut self, answer: u8, code: u8) {
        self.bytes += 1;
        self.answers.add(answer);
        if matches!(answer, 1..=4 | 10) {
            self.commands[usize::from(code)].add(answer);
        }
    }

    /// What a run never did.
    pub fn missed(&self) -> Vec<String> {
        [
            self.limits.missed(),
            self.rows.missed(),
            self.frams.missed(),
            self.costs.missed(),
            self.ports.missed(),
            self.many.missed(),
        ]
        .concat()
    }
}

impl fmt::Display for Tally {
    fn fmt(&self, f: &mut fmt::Formatter) -> fmt::Result {
        writeln!(f, "{} bytes, answers {}", self.bytes, self.answers)?;
        for (code, times) in self.commands.iter().enumerate() {
            writeln!(f, "  command {code:#04x}: {times}")?;
        }
        writeln!(f, "  set-up: {}", self.set_ups)?;
        writeln!(f, "  packing alone: {}", self.packed)?;
        writeln!(f, "  joining: {}", self.joined)?;
        writeln!(f, "  judging a list: {}", self.judged)?;
        writeln!(f, "  storing a list: {}", self.stored)?;
        writeln!(f, "  sending a judged list: {}", self.sent)?;
        writeln!(f, "  {}", self.limits)?;
        writeln!(f, "  {}", self.frams)?;
        writeln!(f, "  {}", self.costs)?;
        writeln!(f, "  {}", self.ports)?;
        writeln!(f, "  {}", self.many)?;
        write!(f, "  {}", self.rows)
    }
}
