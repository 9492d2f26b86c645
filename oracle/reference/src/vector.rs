//! Taking a vector.
use crate::label::{take_record, Labels};
use crate::{Refusal, MAX_POINTS, MAX_SERIES, MAX_START, MAX_STEP};

#[derive(Clone, Debug, PartialEq, Eq)]
pub struct Series {
    pub labels: Labels,
    pub row: Vec<u64>,
}

/// 02: "a start in milliseconds ... and a step": where the points of a vector lie.
#[derive(Clone, Copy, Debug, PartialEq, Eq)]
pub struct Grid {
    pub start: u64,
    pub step: u32,
}

impl Grid {
    /// A point an hour, for what does not turn on the grid.
    pub const HOURLY: Grid = Grid { start: 0, step: 3_600_000 };

    /// "0 to 2 to the 52nd", "1 to 86,400,000"
    pub fn is_in_range(self) -> bool {
        self.start <= MAX_START && (1..=MAX_STEP).contains(&self.step)
    }

    /// The times of so many points.
    pub fn times(self, points: usize) -> Vec<u64> {
        (0..points as u64).map(|i| self.start + i * u64::from(self.step)).collect()
    }
}

#[derive(Clone, Debug, PartialEq, Eq)]
pub struct Vector {
    pub points: usize,
    pub grid: Grid,
    pub series: Vec<Series>,
}

/// 02: "A vector's sizes gain, after the label length, a start in milliseconds (8 bytes ...) and a step (4 bytes ...)": series,
/// points and label length have 2 each.
pub const SIZES: usize = 18;

/// "Fields: side (0 left, 1 right), series place (0 for sizes, array length and number 5; n for bytes left over)."
pub fn take_vector(side: usize, label_part: &[u8], readings: &[u64]) -> Result<Vector, Refusal> {
    let (points, grid, labels) = take_labels(side, label_part)?;
    // "5, readings not n times p"
    if readings.len() != labels.len() * points {
        return Err(Refusal::new(5, side, 0));
    }
    let row = |i: usize| readings[i * points..(i + 1) * points].to_vec();
    let series = labels.into_iter().enumerate().map(|(i, labels)| Series { labels, row: row(i) }).collect();
    Ok(Vector { points, grid, series })
}

/// "3, sizes cut or above a limit, a label array not of its stated length, a record cut or over 32 tags, or label bytes left
/// over; 4, ...". "series count n (2 bytes, to 512), points p (2, to 1,024), label-array length (2)". "Records go in order, 3
/// before 4 within each; bytes left over come after the last record". 02: "11, start or step outside its range, tested after the
/// size limits of number 3 and before the array length, fields as for sizes".
pub fn take_labels(side: usize, label_part: &[u8]) -> Result<(usize, Grid, Vec<Labels>), Refusal> {
    let sizes_at_fault = Refusal::new(3, side, 0);
    let (sizes, array) = label_part.split_first_chunk::<SIZES>().ok_or(sizes_at_fault)?;
    let integer = |from: usize, to: usize| sizes[from..to].iter().rev().fold(0, |n, byte| 256 * n + u64::from(*byte));
    let (n, points, length) = (integer(0, 2) as usize, integer(2, 4) as usize, integer(4, 6) as usize);
    let grid = Grid { start: integer(6, 14), step: integer(14, SIZES) as u32 };
    if n > MAX_SERIES || points > MAX_POINTS {
        return Err(sizes_at_fault);
    }
    if !grid.is_in_range() {
        return Err(Refusal::new(11, side, 0));
    }
    if array.len() != length {
        return Err(sizes_at_fault);
    }
    let mut rest = array;
    let mut all = Vec::new();
    for place in 0..n {
        let (labels, used) = take_record(rest).map_err(|fault| Refusal::new(fault.number(), side, place))?;
        all.push(labels);
        rest = &rest[used..];
    }
    if !rest.is_empty() {
        return Err(Refusal::new(3, side, n));
    }
    Ok((points, grid, all))
}

impl Vector {
    /// On the grid that has a point an hour.
    pub fn hourly(points: usize, series: Vec<Series>) -> Vector {
        Vector { points, grid: Grid::HOURLY, series }
    }

    /// The label part and the readings that `take_vector` takes back.
    pub fn parts(&self) -> (Vec<u8>, Vec<u64>) {
        let array: Vec<u8> = self.series.iter().flat_map(|s| s.labels.record()).collect();
        let mut part = Vec::new();
        for size in [self.series.len(), self.points, array.len()] {
            part.extend_from_slice(&(size as u16).to_le_bytes());
        }
        part.extend_from_slice(&self.grid.start.to_le_bytes());
        part.extend_from_slice(&self.grid.step.to_le_bytes());
        part.extend_from_slice(&array);
        (part, self.series.iter().flat_map(|s| s.row.iter().copied()).collect())
    }
}
