//! A side of a call, written series by series.
use std::error::Error;
use std::fmt;

use crate::Side;

/// A vector that is written series by series and lent as a [`Side`].
///
/// It takes whatever its bytes can say, and [`exec_binop`](crate::exec_binop) judges it: a vector of 513 series is
/// refused there, with 3.
#[derive(Clone, Debug)]
pub struct Vector {
    labels: Vec<u8>,
    readings: Vec<u64>,
}

impl Vector {
    /// The length of a label part's sizes.
    const SIZES: usize = 18;

    /// A vector without series, of so many points. The first is of the time `start`, each further one `step` later;
    /// both are in milliseconds.
    pub fn new(points: u16, start: u64, step: u32) -> Vector {
        let labels = [&[0, 0], &points.to_le_bytes()[..], &[0, 0], &start.to_le_bytes(), &step.to_le_bytes()].concat();
        Vector { labels, readings: Vec::new() }
    }

    /// Adds a series: its name, its tags as keys and values, in any order, and its row, where any NaN is a missing
    /// reading. A series that cannot be encoded leaves the vector as it was.
    ///
    /// ```
    /// use nosingcatnip::{EncodeError, Vector};
    ///
    /// let mut fed = Vector::new(2, 0, 3_600_000);
    /// fed.push("fed", &[("press", "A"), ("form", "1")], &[1000.0, f64::NAN])?;
    /// fed.push("", &[], &[1.0, 2.0])?;
    /// assert_eq!(&fed.side().labels[18..], b"\x03fed\x02\x04form\x011\x05press\x01A\0\0");
    /// let short = fed.push("fed", &[], &[1.0]);
    /// assert_eq!(short, Err(EncodeError::RowLength { readings: 1, points: 2 }));
    /// # Ok::<(), EncodeError>(())
    /// ```
    pub fn push<T: AsRef<[u8]> + ?Sized>(
        &mut self,
        name: &T,
        tags: &[(&T, &T)],
        row: &[f64],
    ) -> Result<(), EncodeError> {
        let [series, points] = [0, 2].map(|at| u16::from_le_bytes([self.labels[at], self.labels[at + 1]]));
        if row.len() != usize::from(points) {
            return Err(EncodeError::RowLength { readings: row.len(), points });
        }
        let mut tags: Vec<(&[u8], &[u8])> = tags.iter().map(|&(key, value)| (key.as_ref(), value.as_ref())).collect();
        tags.sort_unstable();
        if tags.windows(2).any(|pair| pair[0].0 == pair[1].0) {
            return Err(EncodeError::TagTwice);
        }
        let mut record = Vec::new();
        put(&mut record, name.as_ref(), EncodeError::LongName)?;
        record.push(tags.len().try_into().map_err(|_| EncodeError::ManyTags)?);
        for (key, value) in tags {
            put(&mut record, key, EncodeError::LongKey)?;
            put(&mut record, value, EncodeError::LongValue)?;
        }
        let length = self.labels.len() - Vector::SIZES + record.len();
        let length: u16 = length.try_into().map_err(|_| EncodeError::ManyLabelBytes)?;
        self.labels.extend(record);
        // A record has two bytes or more, so the series stay below the label bytes.
        self.labels[0..2].copy_from_slice(&(series + 1).to_le_bytes());
        self.labels[4..6].copy_from_slice(&length.to_le_bytes());
        self.readings.extend(row.iter().map(|reading| reading.to_bits()));
        Ok(())
    }

    /// The vector as a side of a call.
    pub fn side(&self) -> Side<'_> {
        Side { labels: &self.labels, readings: &self.readings }
    }
}

/// Writes the length of the bytes, and the bytes.
fn put(record: &mut Vec<u8>, bytes: &[u8], too_long: EncodeError) -> Result<(), EncodeError> {
    record.push(bytes.len().try_into().map_err(|_| too_long)?);
    record.extend(bytes);
    Ok(())
}

/// Why a series cannot be encoded.
#[derive(Clone, Copy, Debug, PartialEq, Eq)]
pub enum EncodeError {
    /// The row has not as many readings as the vector has points.
    RowLength { readings: usize, points: u16 },
    /// Two tags have the same key.
    TagTwice,
    /// The name has over 255 bytes.
    LongName,
    /// There are over 255 tags.
    ManyTags,
    /// A key has over 255 bytes.
    LongKey,
    /// A value has over 255 bytes.
    LongValue,
    /// The records of the vector would have over 65,535 bytes.
    ManyLabelBytes,
}

impl fmt::Display for EncodeError {
    fn fmt(&self, f: &mut fmt::Formatter) -> fmt::Result {
        match self {
            EncodeError::RowLength { readings, points } => {
                write!(f, "a row of {readings} readings for {points} points")
            }
            EncodeError::TagTwice => write!(f, "two tags with the same key"),
            EncodeError::LongName => write!(f, "a name of over 255 bytes"),
            EncodeError::ManyTags => write!(f, "over 255 tags"),
            EncodeError::LongKey => write!(f, "a key of over 255 bytes"),
            EncodeError::LongValue => write!(f, "a value of over 255 bytes"),
            EncodeError::ManyLabelBytes => write!(f, "over 65,535 label bytes"),
        }
    }
}

impl Error for EncodeError {}
