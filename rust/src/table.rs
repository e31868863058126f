//! A table of wells that is edited between builds.
use crate::calls::{built, refused, right_version};
use crate::lists::reserved;
use crate::packed::*;
use crate::sys::{self, Head};
use crate::{build_sizes, DDMParams, Error, Tree};

/// A table of wells: they are added and retired, and a tree is built over those that are live, in which slots are the rows.
///
/// A well keeps its slot until it is retired; the slot then goes to the next well that is added, the lowest retired one first.
/// [`close`](Table::close) moves the live wells down, so that no slot is retired. An edit takes one pass over the slots given out.
///
/// ```
/// use rekvashu::{DDMParams, Table};
///
/// let mut table = Table::new(1000, 2)?;
/// let slots = [table.add(&[0.0, 0.0])?, table.add(&[3.0, 4.0])?, table.add(&[6.0, 1.0])?];
/// assert_eq!(slots, [0, 1, 2]);
/// table.retire(1)?;
/// let tree = table.build(DDMParams::default())?;
/// assert_eq!(tree.level(0).unwrap().rows(), [0, 2]);
/// assert_eq!(table.add(&[5.0, 5.0])?, 1);
/// # Ok::<(), rekvashu::Error>(())
/// ```
#[derive(Clone, Debug)]
pub struct Table {
    dimension: usize,
    head: Head,
    flags: Vec<u8>,
    coordinates: Vec<f64>,
}

impl Table {
    /// A table without wells, with room for `capacity` of them, held to 1,048,576. Refusal 1.
    pub fn new(capacity: usize, dimension: usize) -> Result<Self, Error> {
        right_version()?;
        // the library says whether there is such a dimension
        build_sizes(1, dimension, 0)?;
        let capacity = capacity.min(MOST_POINTS);
        Ok(Table { dimension, head: Head::default(), flags: zeros(capacity)?, coordinates: zeros(capacity * dimension)? })
    }

    /// Adds a well, of one coordinate for each axis: its slot, which is the lowest retired one or else the next new one. Refusals 7, 10
    /// (its place is the axis), 21.
    pub fn add(&mut self, point: &[f64]) -> Result<usize, Error> {
        let mut slot = [0; ADD_SLOT];
        match sys::add(&mut self.head, &mut self.flags, &mut self.coordinates, self.dimension, point, &mut slot) {
            0 => Ok(slot[ADD_TAKEN]),
            number => Err(refused(number, slot[ADD_PLACE])),
        }
    }

    /// Retires the well in this slot. Refusal 22.
    pub fn retire(&mut self, slot: usize) -> Result<(), Error> {
        match sys::retire(&mut self.head, &mut self.flags, &self.coordinates, self.dimension, slot) {
            0 => Ok(()),
            number => Err(refused(number, 0)),
        }
    }

    /// Closes the gaps: the live wells move down, in order, so that [`slots`](Table::slots) is then [`len`](Table::len). The answer goes
    /// from old slot to new, and has for each retired slot the slot count before the move.
    ///
    /// A tree that was built before needs no new build: with each row looked up in the answer it is the tree that
    /// [`build`](Table::build) would build now, with the same leaves, boxes, covers and depths. Nothing is refused.
    ///
    /// ```
    /// use rekvashu::{DDMParams, Table};
    ///
    /// let mut table = Table::new(1000, 1)?;
    /// for x in [0.0, 1.0, 3.0, 7.0] {
    ///     table.add(&[x])?;
    /// }
    /// table.retire(1)?;
    /// let tree = table.build(DDMParams::default())?;
    /// let new = table.close()?;
    /// assert_eq!(new, [0, 4, 1, 2]);
    /// let rows: Vec<usize> = tree.level(0).unwrap().rows().iter().map(|&old| new[old]).collect();
    /// assert_eq!(rows, table.build(DDMParams::default())?.level(0).unwrap().rows());
    /// # Ok::<(), rekvashu::Error>(())
    /// ```
    pub fn close(&mut self) -> Result<Vec<usize>, Error> {
        let mut rename = reserved(self.slots())?;
        let mut slot = [0; CLOSE_SLOT];
        match sys::close(&mut self.head, &mut self.flags, &mut self.coordinates, self.dimension, &mut rename, &mut slot) {
            0 => {
                debug_assert_eq!(slot[CLOSE_SLOTS], self.slots());
                Ok(rename)
            }
            number => Err(refused(number, slot[CLOSE_PLACE])),
        }
    }

    /// The live slots, ascending.
    pub fn live(&self) -> impl DoubleEndedIterator<Item = usize> + Clone + '_ {
        (0..self.head.slots).filter(|&slot| self.flags[slot] != 0)
    }

    /// The coordinates of the well in this slot, where it is live.
    pub fn point(&self, slot: usize) -> Option<&[f64]> {
        let live = slot < self.head.slots && self.flags[slot] != 0;
        live.then(|| &self.coordinates[slot * self.dimension..(slot + 1) * self.dimension])
    }

    /// How many wells are live.
    pub fn len(&self) -> usize {
        self.head.live
    }

    /// Whether no well is live.
    pub fn is_empty(&self) -> bool {
        self.len() == 0
    }

    /// How many slots have been given out. Only closing lowers it.
    pub fn slots(&self) -> usize {
        self.head.slots
    }

    /// How many slots there can be.
    pub fn capacity(&self) -> usize {
        self.flags.len()
    }

    /// How many axes the points have.
    pub fn dimension(&self) -> usize {
        self.dimension
    }

    /// Builds the tree over the live slots, in slot order: rows in the tree are slots, and n is the number of live wells. The tree keeps its
    /// cuts, as that of [`build`](crate::build) does.
    /// [`Tree::to_bytes`] refuses such a tree with 20, unless the live slots are 0 to n - 1, as they are after [`close`](Table::close).
    /// Refusals 2 to 6, 9.
    pub fn build(&self, params: DDMParams) -> Result<Tree, Error> {
        let call = |lists: &mut _, slot: &mut _| {
            sys::build_slots(self.head, &self.flags, &self.coordinates, self.dimension, params, lists, slot)
        };
        built(call, self.len(), self.dimension, params)
    }
}

/// A list of so many zeros.
fn zeros<T: Clone + Default>(entries: usize) -> Result<Vec<T>, Error> {
    let mut list = reserved(entries)?;
    list.resize(entries, T::default());
    Ok(list)
}
