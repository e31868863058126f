//! Requests 7 and 8 of document 02 in plain Rust, written from their words alone: the table of wells, its edits, closing its gaps, and the
//! build over its live slots.
use super::{levels_over, settings_refusal, Level, Settings};

/// A table as the caller keeps it: slot count and live count, a flag for each slot, and coordinates.
#[derive(Clone, Debug, Default)]
pub struct Table {
    pub slots: usize,
    pub live: usize,
    pub flags: Vec<u8>,
    pub coordinates: Vec<f64>,
}

impl Table {
    pub fn capacity(&self) -> usize {
        self.flags.len().min(1_048_576)
    }

    /// The live slots, ascending; at or above the slot count none is live.
    pub fn live_slots(&self) -> Vec<usize> {
        (0..self.slots).filter(|&i| self.flags[i] != 0).collect()
    }

    /// 1, 11, 27; `lacking` where another list is too short.
    fn refusal(&self, d: usize, lacking: bool) -> Option<usize> {
        if !(1..=3).contains(&d) {
            return Some(1);
        }
        if lacking || self.coordinates.len() < self.capacity() * d {
            return Some(11);
        }
        (self.slots > self.capacity() || self.live != self.live_slots().len()).then_some(27)
    }

    /// The slot of an added well, or the number and the place of the refusal.
    pub fn add(&mut self, d: usize, point: &[f64]) -> Result<usize, (usize, usize)> {
        if let Some(number) = self.refusal(d, false) {
            return Err((number, 0));
        }
        if point.len() != d {
            return Err((7, 0));
        }
        if let Some(axis) = point.iter().position(|x| !x.is_finite()) {
            return Err((10, axis));
        }
        let retired = (0..self.slots).find(|&i| self.flags[i] == 0);
        if retired.is_none() && self.slots == self.capacity() {
            return Err((21, 0));
        }
        let slot = retired.unwrap_or(self.slots);
        self.flags[slot] = 1;
        self.coordinates[slot * d..(slot + 1) * d].copy_from_slice(point);
        self.live += 1;
        self.slots += usize::from(retired.is_none());
        Ok(slot)
    }

    pub fn retire(&mut self, d: usize, slot: usize) -> Result<(), usize> {
        if let Some(number) = self.refusal(d, false) {
            return Err(number);
        }
        if !self.live_slots().contains(&slot) {
            return Err(22);
        }
        self.flags[slot] = 0;
        self.live -= 1;
        Ok(())
    }

    /// Closes the gaps, and writes from old slot to new to the front of `rename`: the new slot count, or the number of the refusal.
    pub fn close(&mut self, d: usize, rename: &mut [usize]) -> Result<usize, usize> {
        let (slots, lacking) = (self.slots, rename.len() < self.slots);
        if let Some(number) = self.refusal(d, lacking) {
            return Err(number);
        }
        let live = self.live_slots();
        for (old, new) in rename[..slots].iter_mut().enumerate() {
            *new = live.iter().position(|&i| i == old).unwrap_or(slots);
        }
        let mut points: Vec<f64> = live.iter().flat_map(|i| self.coordinates[i * d..(i + 1) * d].to_vec()).collect();
        points.resize(slots * d, 0.0);
        self.coordinates[..slots * d].copy_from_slice(&points);
        self.flags[..slots].fill(0);
        self.flags[..live.len()].fill(1);
        self.slots = live.len();
        Ok(self.slots)
    }

    /// The levels over the live slots of a table that 27 passes, in which slots are the rows, or the number of the refusal.
    pub fn build(&self, d: usize, s: &Settings) -> Result<Vec<Level>, usize> {
        let rows = self.live_slots();
        // coordinates enough for the tests that count them
        match settings_refusal(&vec![0.0; rows.len() * d], d, s) {
            Some((number, _)) => Err(number),
            None => Ok(levels_over(&self.coordinates, d, s, rows)),
        }
    }
}
