//! The rules of the format written a second time, in plain Rust and from the rules alone, so that the proved
//! converter can be compared with it call by call. It is kept plain rather than fast: every cell becomes a list
//! of numbers, every row is read whole and then written, in the order the rules tell.

pub mod base64;
pub mod binary;
pub mod compare;
pub mod converter;
pub mod declarations;
pub mod index;
pub mod integer;
pub mod join;
pub mod tabledata;
pub mod text;

/// The datatypes that are carried.
#[derive(Clone, Copy, Debug, PartialEq, Eq)]
pub enum Kind {
    Boolean,
    Bit,
    UnsignedByte,
    Short,
    Int,
    Long,
    Char,
}

/// The three shapes of a declared length.
#[derive(Clone, Copy, Debug, PartialEq, Eq)]
pub enum Length {
    Fixed(usize),
    Bounded(usize),
    Free,
}

#[derive(Clone, Copy, Debug, PartialEq, Eq)]
pub struct Column {
    pub kind: Kind,
    pub length: Length,
    /// The declared null: only ever there on a scalar integer column.
    pub null: Option<i64>,
}

/// What a cell shows. Elements are numbers: a bit's 0 or 1, a char's code, an integer itself, and for a boolean
/// one of the three below.
#[derive(Clone, Debug, PartialEq, Eq)]
pub enum Cell {
    Null,
    Shown(Vec<i64>),
}

pub const FALSE: i64 = 0;
pub const TRUE: i64 = 1;
pub const UNKNOWN: i64 = 2;

/// The most elements that any cell may have.
pub const MOST_ELEMENTS: usize = 4_096;
pub const MOST_COLUMNS: usize = 64;
pub const MOST_DECLARATIONS: usize = 65_536;
pub const MOST_INPUT: usize = 1_073_741_824;

/// Number, row, column, rows done, bytes written.
pub type Answer = [u64; 5];

/// A call's answer and the bytes it puts at the front of the room; every other byte of the room stays as it was.
#[derive(Clone, Debug, PartialEq, Eq)]
pub struct Written {
    pub answer: Answer,
    pub bytes: Vec<u8>,
}

impl Written {
    pub fn nothing(answer: Answer) -> Self {
        Written { answer, bytes: Vec::new() }
    }
}

/// A row that cannot be read or written: the number and the column.
#[derive(Clone, Copy, Debug, PartialEq, Eq)]
pub struct Refused {
    pub number: u64,
    pub column: usize,
}

pub fn refused<T>(number: u64, column: usize) -> Result<T, Refused> {
    Err(Refused { number, column })
}

impl Kind {
    pub fn is_integer(self) -> bool {
        matches!(self, Kind::UnsignedByte | Kind::Short | Kind::Int | Kind::Long)
    }

    /// The bytes of one element; a bit has no whole byte of its own, see `Column::content_size`.
    pub fn width(self) -> usize {
        match self {
            Kind::Boolean | Kind::Bit | Kind::UnsignedByte | Kind::Char => 1,
            Kind::Short => 2,
            Kind::Int => 4,
            Kind::Long => 8,
        }
    }
}

impl Column {
    pub fn is_scalar(&self) -> bool {
        self.length == Length::Fixed(1)
    }

    /// The most elements a cell of this column may have.
    pub fn bound(&self) -> usize {
        match self.length {
            Length::Fixed(elements) | Length::Bounded(elements) => elements,
            Length::Free => MOST_ELEMENTS,
        }
    }

    /// How many bytes so many elements take in BINARY and BINARY2, the count apart.
    pub fn content_size(&self, elements: usize) -> usize {
        match self.kind {
            Kind::Bit => elements.div_ceil(8),
            kind => elements * kind.width(),
        }
    }

    /// What these elements show where they are not an empty cell: a scalar may be null by its value.
    pub fn shown(&self, elements: Vec<i64>) -> Cell {
        let null_by_value = match self.kind {
            Kind::Boolean => elements == [UNKNOWN],
            _ => self.null.is_some_and(|null| elements == [null]),
        };
        if self.is_scalar() && null_by_value {
            Cell::Null
        } else {
            Cell::Shown(elements)
        }
    }
}
