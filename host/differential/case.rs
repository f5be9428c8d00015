//! One call of one entry, and everything it leaves behind.

/// The C entries, leaves first.
#[derive(Clone, Copy, PartialEq, Eq, PartialOrd, Ord, Debug)]
pub enum Entry {
    Sqrt,
    Fma,
    Hypot,
    NextDown,
    Minimum,
    Maximum,
    Absolute,
    WholePart,
    Recover,
    AToB,
    SToT,
    TToSList,
    TToSGrid,
    WalkStart,
    WalkStep,
    CutFileSection,
}

impl Entry {
    pub const LEAVES: [Entry; 8] = [
        Entry::Sqrt,
        Entry::Fma,
        Entry::Hypot,
        Entry::NextDown,
        Entry::Minimum,
        Entry::Maximum,
        Entry::Absolute,
        Entry::WholePart,
    ];
    pub const CONVERSIONS: [Entry; 4] = [Entry::AToB, Entry::SToT, Entry::TToSList, Entry::TToSGrid];
    pub const WALK: [Entry; 2] = [Entry::WalkStart, Entry::WalkStep];

    /// The entry's name; its numbers (patterns, or the flag of the grid); its byte lists; and the numbers it is lent, if any.
    pub fn names(self) -> (&'static str, &'static [&'static str], &'static [&'static str], &'static [&'static str]) {
        const REQUEST: &[&str] = &[
            "a_prev",
            "prev_lower",
            "prev_upper",
            "prev_cap",
            "curr_lower",
            "curr_upper",
            "curr_cap",
            "feas_tol",
            "a_cmp_abs_tol",
            "a_cmp_rel_tol",
        ];
        const START: &[&str] = &["feas_tol", "a_cmp_abs_tol", "a_cmp_rel_tol", "start_speed", "lower", "upper", "cap"];
        const FIGURES: &[&str] = &["speed", "worst_normalized", "worst_raw", "tried"];
        const COUNTS: &[&str] = &["before", "inside", "past", "written"];
        match self {
            Entry::Sqrt => ("malikoza_sqrt", &["x"], &[], &[]),
            Entry::Fma => ("malikoza_fma", &["x", "y", "z"], &[], &[]),
            Entry::Hypot => ("malikoza_hypot", &["x", "y"], &[], &[]),
            Entry::NextDown => ("malikoza_next_down", &["x"], &[], &[]),
            Entry::Minimum => ("malikoza_minimum", &["x", "y"], &[], &[]),
            Entry::Maximum => ("malikoza_maximum", &["x", "y"], &[], &[]),
            Entry::Absolute => ("malikoza_absolute", &["x"], &[], &[]),
            Entry::WholePart => ("malikoza_whole_part", &["x"], &[], &[]),
            Entry::Recover => ("malikoza_recover", REQUEST, &["rows"], FIGURES),
            Entry::AToB => ("malikoza_a_to_b", &[], &["s", "a"], &[]),
            Entry::SToT => ("malikoza_s_to_t", &["t0"], &["s", "a"], &[]),
            Entry::TToSList => ("malikoza_t_to_s_list", &[], &["s", "a", "t", "samples"], COUNTS),
            Entry::TToSGrid => ("malikoza_t_to_s_grid", &["t0", "dt", "with_final"], &["s", "a", "t"], COUNTS),
            Entry::WalkStart => ("malikoza_walk_start", START, &[], &[]),
            Entry::WalkStep => ("malikoza_walk_step", &["lower", "upper", "cap"], &["rows", "walk"], FIGURES),
            Entry::CutFileSection => ("malikoza_cut_file_section", &["kind"], &["file"], &["start", "length"]),
        }
    }
}

/// What one call is given: its numbers and byte lists in the order of its arguments, and the length of its output in bytes. A walk's eight words are
/// an output of 64 bytes; as they stand before a step they are its second list.
#[derive(Clone, Debug)]
pub struct Case {
    pub entry: Entry,
    pub numbers: Vec<u64>,
    pub lists: Vec<Vec<u8>>,
    pub room: usize,
}

impl Case {
    pub fn number(&self, place: usize) -> f64 {
        f64::from_bits(self.numbers[place])
    }

    /// The grid's flag: "0 is no, anything else is yes".
    pub fn with_final(&self) -> bool {
        self.numbers[2] as u8 != 0
    }

    /// The doubles of a list. Bytes left over at its end are refused (10) before any list is read.
    pub fn doubles(&self, place: usize) -> Vec<f64> {
        self.lists[place].chunks_exact(8).map(|b| f64::from_le_bytes(b.try_into().unwrap())).collect()
    }

    /// What the output holds before the call: the walk, if it is to go on; else something else at each place, so that bytes moved within it are seen as well.
    pub fn output_before(&self) -> Vec<u8> {
        match self.entry {
            Entry::WalkStep => self.lists[1].clone(),
            _ => (0..self.room).map(|i| (i.wrapping_mul(0x9e37_79b9) >> 7) as u8).collect(),
        }
    }

    /// The whole input, patterns in hex.
    pub fn described(&self) -> String {
        let (name, numbers, lists, _) = self.entry.names();
        let mut text = name.to_string();
        for (name, pattern) in numbers.iter().zip(&self.numbers) {
            text += &format!("\n  {name} {pattern:016x}");
        }
        for (name, list) in lists.iter().zip(&self.lists) {
            let width = if self.entry == Entry::CutFileSection { 1 } else { 8 };
            text += &format!("\n  {name}, {} bytes: {}", list.len(), list_in_hex(list, width));
        }
        if Entry::CONVERSIONS.contains(&self.entry) {
            text += &format!("\n  output of {} bytes", self.room);
        }
        text
    }
}

/// A list's patterns in hex, or a file's bytes. Of a list beyond every limit of stations only the ends are shown: the run's seed gives it again.
fn list_in_hex(list: &[u8], width: usize) -> String {
    const FULL: usize = 5000;
    const END: usize = 8;
    let in_hex = |entry: &[u8]| entry.iter().rev().map(|b| format!("{b:02x}")).collect();
    let entries: Vec<String> = list.chunks(width).map(in_hex).collect();
    if entries.len() <= FULL {
        return entries.join(" ");
    }
    format!("{} .. {}", entries[..END].join(" "), entries[entries.len() - END..].join(" "))
}

pub fn bytes(doubles: &[f64]) -> Vec<u8> {
    doubles.iter().flat_map(|x| x.to_le_bytes()).collect()
}

/// What one call leaves behind: its answer, the four numbers and the output it was lent, and whether it wrote anywhere else.
#[derive(Clone, PartialEq, Debug)]
pub struct Answer {
    pub number: u64,
    pub lent: [u64; 4],
    pub out: Vec<u8>,
    pub strayed: bool,
}

/// What the lent numbers hold before the call.
pub const LENT: [u64; 4] = [0x0123_4567_89ab_cdef, 0x1234_5678_9abc_def0, 0x2345_6789_abcd_ef01, 0x3456_789a_bcde_f012];

impl Answer {
    /// A refusal: everything lent is as it was.
    pub fn refused(number: u64, case: &Case) -> Answer {
        Answer { number, lent: LENT, out: case.output_before(), strayed: false }
    }

    /// An answer that writes these doubles to the front of the output.
    pub fn wrote(lent: [u64; 4], front: &[f64], case: &Case) -> Answer {
        let mut out = case.output_before();
        for (place, x) in out.chunks_exact_mut(8).zip(front) {
            place.copy_from_slice(&pattern(*x).to_le_bytes());
        }
        Answer { number: 0, lent, out, strayed: false }
    }

    pub fn pattern_at(&self, place: usize) -> u64 {
        u64::from_le_bytes(self.out[8 * place..8 * place + 8].try_into().unwrap())
    }
}

/// A double's pattern; document 01: every NaN of ours "is always 7FF8000000000000 in hex".
pub fn pattern(x: f64) -> u64 {
    if x.is_nan() {
        crate::random::NAN
    } else {
        x.to_bits()
    }
}

/// Document 01's allowances against Rust: "the two zeros compare equal, all NaN compare equal".
pub fn alike(ours: u64, rust: f64) -> bool {
    let x = f64::from_bits(ours);
    ours == rust.to_bits() || x == rust || x.is_nan() && rust.is_nan()
}
