//! What a list is, without its words: an ordered map of standing keys, the free chain and
//! the position. Which key leads to which follows from the keys alone, so no link is kept.

use crate::settings::Settings;
use std::collections::BTreeMap;

#[derive(Clone, Copy, Debug, PartialEq)]
pub enum Mark {
    Live,
    Dead,
}

#[derive(Clone, Debug, PartialEq)]
pub struct Standing {
    pub cell: u32,
    pub value: u32,
    pub mark: Mark,
    pub owes: bool,
}

#[derive(Clone, Debug, PartialEq)]
pub struct Model {
    pub settings: Settings,
    /// By key; the head is key 0.
    pub standing: BTreeMap<u32, Standing>,
    /// The first free cell is the last here, so that the chain's front is pushed and popped.
    pub free: Vec<u32>,
    /// The key of the position.
    pub position: u32,
}

/// What a cell owes: the key of the owed cell, and the links from low up to below high.
#[derive(Clone, Debug, PartialEq)]
pub struct Debt {
    pub owed: u32,
    pub low: usize,
    pub high: usize,
}

impl Debt {
    pub fn covers(&self, d: usize) -> bool {
        self.low <= d && d < self.high
    }
}

impl Model {
    /// The operations 1.
    pub fn fresh(settings: Settings) -> Model {
        let head = Standing { cell: 0, value: 0, mark: Mark::Dead, owes: false };
        Model {
            free: (1..settings.cells as u32).rev().collect(),
            standing: BTreeMap::from([(0, head)]),
            position: 0,
            settings,
        }
    }

    /// The greatest standing key below this one, which need not stand itself.
    pub fn next_smaller(&self, key: u32) -> Option<u32> {
        self.standing.range(..key).next_back().map(|(&x, _)| x)
    }

    pub fn next_larger(&self, key: u32) -> Option<u32> {
        let from = key.checked_add(1)?;
        self.standing.range(from..).next().map(|(&x, _)| x)
    }

    /// How cells hang together 2.
    pub fn dimension(&self, key: u32) -> usize {
        self.next_smaller(key).map_or(0, |x| self.settings.shared(x, key))
    }

    /// How cells hang together 3.
    pub fn link(&self, x: u32, d: usize) -> Option<u32> {
        if d < self.dimension(x) {
            return None;
        }
        self.least_larger_at(x, d)
    }

    /// The same for a d known to be at least e. Of the keys past those that share d + 1
    /// coordinates with x, the least one shares d with x if any does.
    pub fn least_larger_at(&self, x: u32, d: usize) -> Option<u32> {
        let from = u32::try_from(self.settings.above_sharing(x, d + 1)).ok()?;
        let (&y, _) = self.standing.range(from..).next()?;
        (self.settings.shared(x, y) == d).then_some(y)
    }

    /// The key that has a link to this one in the settled shape, and that link's number.
    /// A link d leads only to a key that shares exactly d coordinates.
    pub fn parent(&self, key: u32) -> (u32, usize) {
        let below = self.standing.range(..key).rev();
        below
            .map(|(&x, _)| (x, self.settings.shared(x, key)))
            .find(|&(x, d)| self.link(x, d) == Some(key))
            .expect("a standing cell other than the head has no parent")
    }

    /// Debts 2: owed, low and high.
    pub fn debt(&self, n: u32) -> Option<Debt> {
        if !self.standing[&n].owes {
            return None;
        }
        let c = self.next_larger(n)?;
        Some(Debt { owed: c, low: self.dimension(n), high: self.settings.shared(n, c) })
    }

    pub fn finish(&mut self, key: u32) {
        self.standing.get_mut(&key).expect("finished a key that does not stand").owes = false;
    }

    pub fn least_live(&self) -> Option<u32> {
        let mut live = self.standing.iter().filter(|(_, at)| at.mark == Mark::Live);
        live.next().map(|(&key, _)| key)
    }

    /// The position 2.
    pub fn path(&self, d: usize) -> u32 {
        let from = self.settings.least_sharing(self.position, d + 1);
        let (_, least) = self.standing.range(from..).next().expect("no position");
        least.cell
    }
}
