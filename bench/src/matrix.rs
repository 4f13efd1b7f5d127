//! Which prices and volumes a sale condition changes, by either of two matrices.

/// The sale condition matrix that a day goes by.
#[derive(Clone, Copy, Debug, PartialEq, Eq)]
pub enum Matrix {
    One,
    /// The fourth position has two codes more, and odd lots may become the high and the low.
    Two,
}

/// When a trade becomes the last one, the weakest rule first.
#[derive(Clone, Copy, Debug, PartialEq, Eq, PartialOrd, Ord)]
pub enum LastRule {
    Never,
    FirstOnly,
    SameMarket,
    Always,
}

use LastRule::{Always, FirstOnly, Never, SameMarket};

impl LastRule {
    /// The weakest rule by which a participant's trade becomes the last after one of `last`'s.
    pub fn weakest(last: Option<u8>, participant: u8) -> Self {
        match last {
            None => FirstOnly,
            Some(market) if market == participant => SameMarket,
            Some(_) => Always,
        }
    }
}

/// The five cells of a code, or the least cells of several codes.
#[derive(Clone, Copy, Debug, PartialEq, Eq)]
pub struct Cells {
    /// The consolidated high and low, then the participant's.
    pub high_low: [bool; 2],
    /// The consolidated last, then the participant's.
    pub last: [LastRule; 2],
    pub volume: bool,
}

impl Cells {
    const fn new(high_low: [bool; 2], last: [LastRule; 2], volume: bool) -> Self {
        Cells {
            high_low,
            last,
            volume,
        }
    }

    const fn least(self, other: Cells) -> Cells {
        Cells {
            high_low: [
                self.high_low[0] && other.high_low[0],
                self.high_low[1] && other.high_low[1],
            ],
            last: [
                lesser(self.last[0], other.last[0]),
                lesser(self.last[1], other.last[1]),
            ],
            volume: self.volume && other.volume,
        }
    }
}

const fn lesser(a: LastRule, b: LastRule) -> LastRule {
    if (a as u8) < (b as u8) { a } else { b }
}

const EVERYTHING: Cells = Cells::new([true; 2], [Always; 2], true);
const VOLUME: Cells = Cells::new([false; 2], [Never; 2], true);
const FIRST: Cells = Cells::new([true; 2], [FirstOnly; 2], true);
const SAME: Cells = Cells::new([true; 2], [SameMarket; 2], true);
const PRICED: Cells = Cells::new([true; 2], [Never; 2], true);
const CORRECTED_CLOSE: Cells = Cells::new([true, false], [Always, Never], false);
const MARKET_CLOSE: Cells = Cells::new([false, true], [Never, Always], false);
const MARKET_OPEN: Cells = Cells::new([false, true], [Never; 2], false);

/// Codes of one position that have the same cells.
type Row = (&'static [u8], Cells);

const SETTLEMENTS: &[Row] = &[(b"@", EVERYTHING), (b"CNR", VOLUME)];
const EXEMPTIONS: &[Row] = &[
    (b" FO56", EVERYTHING),
    (b"4", FIRST),
    (b"7", VOLUME),
    (b"9", CORRECTED_CLOSE),
];
const SESSIONS: &[Row] = &[
    (b" ", EVERYTHING),
    (b"TU", VOLUME),
    (b"L", SAME),
    (b"Z", FIRST),
];
const DETAILS_OF_ONE: &[Row] = &[
    (b" ABDSXY1", EVERYTHING),
    (b"HIVW", VOLUME),
    (b"PG", FIRST),
    (b"M", MARKET_CLOSE),
    (b"Q", MARKET_OPEN),
];
const DETAILS_OF_TWO: &[Row] = &[
    (b" ABDSXY1", EVERYTHING),
    (b"I", PRICED),
    (b"HVW", VOLUME),
    (b"PG3", FIRST),
    (b"2", SAME),
    (b"M", MARKET_CLOSE),
    (b"Q", MARKET_OPEN),
];

/// Each position's cells by its code.
type ByCode = [[Option<Cells>; 256]; 4];

/// Made once, at compile time.
static OF_ONE: ByCode = by_code([SETTLEMENTS, EXEMPTIONS, SESSIONS, DETAILS_OF_ONE]);
static OF_TWO: ByCode = by_code([SETTLEMENTS, EXEMPTIONS, SESSIONS, DETAILS_OF_TWO]);

const fn by_code(rows: [&[Row]; 4]) -> ByCode {
    let mut table = [[None; 256]; 4];
    let mut position = 0;
    while position < 4 {
        let mut row = 0;
        while row < rows[position].len() {
            let (codes, cells) = rows[position][row];
            let mut code = 0;
            while code < codes.len() {
                table[position][codes[code] as usize] = Some(cells);
                code += 1;
            }
            row += 1;
        }
        position += 1;
    }
    table
}

impl Matrix {
    fn by_code(self) -> &'static ByCode {
        match self {
            Matrix::One => &OF_ONE,
            Matrix::Two => &OF_TWO,
        }
    }

    /// The least cells over the four codes; `None` if the matrix does not have one in its position.
    pub fn cells(self, codes: [u8; 4]) -> Option<Cells> {
        let table = self.by_code();
        let first = table[0][codes[0] as usize]?;
        let second = table[1][codes[1] as usize]?;
        let third = table[2][codes[2] as usize]?;
        let fourth = table[3][codes[3] as usize]?;
        Some(first.least(second).least(third).least(fourth))
    }
}

/// Whether some matrix has each code in its position: Matrix Two has all that Matrix One has.
pub fn is_condition(codes: [u8; 4]) -> bool {
    let mut places = OF_TWO.iter().zip(codes);
    places.all(|(table, code)| table[usize::from(code)].is_some())
}
