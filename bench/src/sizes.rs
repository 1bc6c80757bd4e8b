//! The published sizes.

/// A cell of the term store and of the working store; line numbers and lengths of contexts fit in it.
pub type Cell = u32;

/// A cell of a term store that was kept when cells had 16 bits.
pub type NarrowCell = u16;

/// A cell is CELL_FACTOR × value + kind.
pub const CELL_FACTOR: Cell = 8;

pub const SMALLEST_LIMIT: u32 = 16;
pub const LARGEST_LIMIT: u32 = 4_096;

/// Working cells for each cell of the limit.
pub const WORK_UNITS: usize = 128;

/// Table cells for each line.
pub const ROW_WIDTH: usize = 9;

/// Where the indicator, the length of the context and the kind of a line, the places of its middle and its category, the end of its
/// cells and the number of its paragraph stand in its row.
pub const INDICATOR: usize = 2;
pub const CONTEXT_LENGTH: usize = 3;
pub const KIND: usize = 4;
pub const MIDDLE: usize = 5;
pub const CATEGORY: usize = 6;
pub const TERMS_END: usize = 7;
pub const PARAGRAPH: usize = 8;

pub const MOST_LINES: usize = 65_535;
/// How many lines there could be when cells had 16 bits.
pub const NARROW_LINES: usize = 8_191;
pub const MOST_BYTES: usize = 16_777_215;

/// How deep expressions may be nested and comparisons may go.
pub const NESTING: usize = 32;

/// How many paragraphs may be open together.
pub const MOST_OPEN: usize = 32;

pub const LONGEST_NAME: usize = 32;

/// The columns of a printed row: a line's number, a blank one, its text; and the bytes of a row, byte 10 among them.
pub const NUMBER_COLUMNS: usize = 5;
pub const TEXT_COLUMNS: usize = 66;
pub const PAGE_ROW: usize = NUMBER_COLUMNS + 1 + TEXT_COLUMNS + 1;

/// How many codes there are, that of acceptance among them.
pub const CODES: usize = 19;
