//! Cut files.

use crate::entries;
use crate::refusal::{self, Refusal};

/// A cut file that was found sound. What it hands back is borrowed from its bytes.
///
/// A file is sections, each of a kind, a payload length and a payload. Kinds rise: 1 stations, 2 squared speeds, 3 times,
/// 4 an even grid, 5 samples. Only the form is judged: a double may be any, a NaN as well, and the conversions judge the
/// lists that they are lent.
///
/// ```
/// use malikoza::{CutFile, Grid, Refusal};
///
/// // Two stations, 0 and 1, and an even grid from 0 by 0.125 with the final.
/// let mut bytes = vec![1, 17, 2];
/// bytes.extend([0.0_f64, 1.0].map(f64::to_le_bytes).concat());
/// bytes.extend([4, 17]);
/// bytes.extend([0.0_f64, 0.125].map(f64::to_le_bytes).concat());
/// bytes.push(1);
///
/// let file = CutFile::new(&bytes)?;
/// assert_eq!(file.stations().unwrap().to_vec(), [0.0, 1.0]);
/// assert_eq!(file.grid(), Some(Grid { t0: 0.0, dt: 0.125, with_final: true }));
/// assert!(file.samples().is_none());
///
/// // A kind that does not rise, behind all that.
/// bytes.push(3);
/// assert_eq!(CutFile::new(&bytes).err(), Some(Refusal::KindNotRising));
/// # Ok::<(), Refusal>(())
/// ```
#[derive(Clone, Copy, Debug, PartialEq, Eq)]
pub struct CutFile<'a> {
    /// The payloads of the kinds 1 to 5, where they are there.
    payloads: [Option<&'a [u8]>; 5],
}

impl<'a> CutFile<'a> {
    /// Judges the whole file. The empty one is sound, and has no section.
    ///
    /// # Errors
    ///
    /// Refusals 40 to 45: 40 for more than [`MAX_FILE`](crate::MAX_FILE) bytes, else the first fault in reading order.
    pub fn new(bytes: &'a [u8]) -> Result<CutFile<'a>, Refusal> {
        let mut payloads = [None; 5];
        for (kind, payload) in (1..).zip(&mut payloads) {
            *payload = match section(bytes, kind) {
                Err(Refusal::KindAbsent) => None,
                judged => Some(judged?),
            };
        }
        Ok(CutFile { payloads })
    }

    /// Section 1.
    #[must_use]
    pub fn stations(&self) -> Option<Doubles<'a>> {
        self.payloads[0].map(Doubles::of)
    }

    /// Section 2, squared speeds.
    #[must_use]
    pub fn speeds(&self) -> Option<Doubles<'a>> {
        self.payloads[1].map(Doubles::of)
    }

    /// Section 3.
    #[must_use]
    pub fn times(&self) -> Option<Doubles<'a>> {
        self.payloads[2].map(Doubles::of)
    }

    /// Section 4.
    #[must_use]
    pub fn grid(&self) -> Option<Grid> {
        self.payloads[3].map(Grid::of)
    }

    /// Section 5.
    #[must_use]
    pub fn samples(&self) -> Option<Doubles<'a>> {
        self.payloads[4].map(Doubles::of)
    }
}

/// The payload of the section of a kind.
#[allow(clippy::cast_possible_truncation)] // both are at most MAX_FILE
fn section(file: &[u8], kind: u64) -> Result<&[u8], Refusal> {
    let (mut start, mut length) = (0, 0);
    // SAFETY: the pointer and the length are one slice's, and the two numbers are lent for this call alone.
    refusal::none(unsafe {
        entries::malikoza_cut_file_section(file.as_ptr(), file.len(), kind, &raw mut start, &raw mut length)
    })?;
    Ok(&file[start as usize..][..length as usize])
}

/// The doubles of a list in a cut file, where they stand.
#[derive(Clone, Copy, Debug, PartialEq, Eq)]
pub struct Doubles<'a> {
    bytes: &'a [u8],
}

impl<'a> Doubles<'a> {
    /// Those of a payload: its last bytes, as many as go in eights. The count before them takes 1 to 3.
    fn of(payload: &'a [u8]) -> Doubles<'a> {
        Doubles { bytes: &payload[payload.len() % 8..] }
    }

    /// How many there are.
    #[must_use]
    pub fn len(self) -> usize {
        self.bytes.len() / 8
    }

    /// Whether there are none.
    #[must_use]
    pub fn is_empty(self) -> bool {
        self.bytes.is_empty()
    }

    /// One after the other, each with the pattern that it has in the file.
    pub fn iter(self) -> impl ExactSizeIterator<Item = f64> + 'a {
        self.bytes.chunks_exact(8).map(double)
    }

    /// A list of them, as the conversions take it.
    #[must_use]
    pub fn to_vec(self) -> Vec<f64> {
        self.iter().collect()
    }

    /// Eight bytes for each, low byte first: such a byte list as the C entries take.
    #[must_use]
    pub fn as_bytes(self) -> &'a [u8] {
        self.bytes
    }
}

fn double(bytes: &[u8]) -> f64 {
    f64::from_le_bytes(bytes.try_into().expect("a pattern is eight bytes"))
}

/// An even grid of a cut file, as [`t_to_s_grid`](crate::t_to_s_grid) takes it.
#[derive(Clone, Copy, Debug, PartialEq)]
pub struct Grid {
    /// The first time.
    pub t0: f64,
    /// The step.
    pub dt: f64,
    /// Whether the final is asked for.
    pub with_final: bool,
}

impl Grid {
    /// That of a payload: two patterns, and a flag that is 0 or 1.
    fn of(payload: &[u8]) -> Grid {
        Grid { t0: double(&payload[..8]), dt: double(&payload[8..16]), with_final: payload[16] == 1 }
    }
}
