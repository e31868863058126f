//! A batch of jobs on standard input, for comparisons: a 4-byte count and, for each job, a 4-byte length and a job stream (numbers
//! little-endian; whole streams, any number of points).
use std::io::Read;

pub struct Job {
    pub d: usize,
    pub leaf: u32,
    pub neighbours: u32,
    pub factor: u32,
    /// The fixed threshold; none under Auto.
    pub fixed: Option<u32>,
    pub coords: Vec<f64>,
}

fn number(b: &[u8]) -> u32 {
    u32::from_le_bytes([b[0], b[1], b[2], b[3]])
}

fn job(b: &[u8]) -> Job {
    let d = b[2] as usize;
    let point = |record: &[u8]| record[2..].chunks(8).map(|c| f64::from_le_bytes(c.try_into().unwrap())).collect::<Vec<_>>();
    Job {
        d,
        leaf: number(&b[3..]),
        neighbours: number(&b[7..]),
        factor: number(&b[11..]),
        fixed: (b[15] != 0).then(|| number(&b[16..])),
        coords: b[20..].chunks(2 + 8 * d).flat_map(point).collect(),
    }
}

/// The jobs of the batch, in their order.
pub fn jobs() -> impl Iterator<Item = Job> {
    let mut data = Vec::new();
    std::io::stdin().read_to_end(&mut data).unwrap();
    let mut at = 4;
    (0..number(&data)).map(move |_| {
        let start = at + 4;
        at = start + number(&data[at..]) as usize;
        job(&data[start..at])
    })
}
