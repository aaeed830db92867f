//! Lent name tables: bytes end to end and a list of ends (document 01, "Answer numbers").
use std::collections::HashMap;

/// One table: either its names, each with its entry number, or its first bad entry.
#[derive(Debug, Default)]
pub struct Names {
    entries: HashMap<Box<[u8]>, usize>,
    bad: Option<usize>,
}

impl Names {
    /// Checks the table and takes its names. `ends` are four bytes each.
    pub fn new(ends: &[u8], bytes: &[u8]) -> Self {
        let ends: Vec<usize> =
            ends.chunks_exact(4).map(|e| u32::from_le_bytes(e.try_into().unwrap()) as usize).collect();
        let mut names: Vec<&[u8]> = Vec::with_capacity(ends.len());
        let mut before = 0;
        for (i, &end) in ends.iter().enumerate() {
            if end < before || end > bytes.len() {
                return Self::malformed(i);
            }
            let name = &bytes[before..end];
            if names.last().is_some_and(|last| name <= *last) {
                return Self::malformed(i);
            }
            names.push(name);
            before = end;
        }
        if before != bytes.len() {
            return Self::malformed(ends.len());
        }
        let entries = names.into_iter().enumerate().map(|(i, name)| (name.into(), i)).collect();
        Self { entries, bad: None }
    }

    fn malformed(at: usize) -> Self {
        Self { entries: HashMap::new(), bad: Some(at) }
    }

    /// The first bad entry, if the table is malformed.
    pub fn first_bad(&self) -> Option<usize> {
        self.bad
    }

    /// The entry that holds the name.
    pub fn entry(&self, name: &[u8]) -> Option<usize> {
        self.entries.get(name).copied()
    }
}

/// The tables that stand: symbols, labels and, if lent, the bibliography.
#[derive(Debug, Default)]
pub struct Tables {
    pub symbols: Names,
    pub labels: Names,
    pub bibliography: Option<Names>,
}

impl Tables {
    /// Op T: table 1, 2 or 3 from now on; 0 takes the bibliography away.
    pub fn lend(&mut self, number: u8, count: u32, payload: &[u8]) {
        if number == 0 {
            self.bibliography = None;
            return;
        }
        let (ends, bytes) = payload.split_at(4 * count as usize);
        let names = Names::new(ends, bytes);
        match number {
            1 => self.symbols = names,
            2 => self.labels = names,
            _ => self.bibliography = Some(names),
        }
    }

    /// Table 1, 2 or 3; none if it is not lent.
    pub fn get(&self, number: u8) -> Option<&Names> {
        match number {
            1 => Some(&self.symbols),
            2 => Some(&self.labels),
            _ => self.bibliography.as_ref(),
        }
    }

    /// The lowest malformed table from 1 to `last`, and its first bad entry.
    pub fn first_bad(&self, last: u8) -> Option<(u8, usize)> {
        (1..=last).find_map(|n| Some((n, self.get(n)?.first_bad()?)))
    }
}
