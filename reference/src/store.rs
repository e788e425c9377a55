//! Values, and the store of cells that texts and enum values lie in.

use std::fmt;

/// The most bytes that a text has.
pub const MOST_BYTES: usize = 24;

/// The place of a cell in its store, from 0.
pub type Place = u16;

#[derive(Clone, Copy, Debug, PartialEq, Eq)]
pub enum Value {
    Unit,
    Number(i32),
    Boolean(bool),
    /// A text or an enum value, by the place of its cell.
    Place(Place),
}

#[derive(Clone, Debug, PartialEq, Eq)]
pub enum Cell {
    Text(Vec<u8>),
    Enum(EnumValue),
}

#[derive(Clone, Debug, PartialEq, Eq)]
pub struct EnumValue {
    pub number: u16,
    pub case: usize,
    pub fields: Vec<Value>,
}

/// A list of cells that grows up to a most.
#[derive(Clone, Debug)]
pub struct Store {
    cells: Vec<Cell>,
    most: u16,
}

impl Store {
    pub fn new(most: u16) -> Self {
        Store { cells: Vec::new(), most }
    }

    /// Adds a cell and gives its place, unless the store is full.
    pub fn put(&mut self, cell: Cell) -> Option<Place> {
        let place = Place::try_from(self.cells.len()).ok().filter(|place| *place < self.most)?;
        self.cells.push(cell);
        Some(place)
    }

    pub fn get(&self, place: Place) -> Option<&Cell> {
        self.cells.get(usize::from(place))
    }

    pub fn into_cells(self) -> Vec<Cell> {
        self.cells
    }
}

impl fmt::Display for Value {
    fn fmt(&self, out: &mut fmt::Formatter<'_>) -> fmt::Result {
        match self {
            Value::Unit => write!(out, "unit"),
            Value::Number(number) => write!(out, "{number}"),
            Value::Boolean(truth) => write!(out, "{truth}"),
            Value::Place(place) => write!(out, "@{place}"),
        }
    }
}

impl fmt::Display for Cell {
    fn fmt(&self, out: &mut fmt::Formatter<'_>) -> fmt::Result {
        match self {
            Cell::Text(bytes) => {
                write!(out, "x")?;
                bytes.iter().try_for_each(|byte| write!(out, "{byte:02x}"))
            }
            Cell::Enum(EnumValue { number, case, fields }) => {
                let fields: Vec<String> = fields.iter().map(Value::to_string).collect();
                write!(out, "{number}.{case}({})", fields.join(","))
            }
        }
    }
}

#[cfg(test)]
mod tests {
    use super::*;

    fn text(letters: &str) -> Cell {
        Cell::Text(letters.into())
    }

    #[test]
    fn grows_up_to_its_most() {
        let mut store = Store::new(2);
        assert_eq!(store.get(0), None);
        assert_eq!(store.put(text("a")), Some(0));
        assert_eq!(store.put(text("b")), Some(1));
        assert_eq!(store.put(text("c")), None);
        assert_eq!(store.get(1), Some(&text("b")));
        assert_eq!(store.get(2), None);
        assert_eq!(store.into_cells(), [text("a"), text("b")]);
    }

    #[test]
    fn may_have_no_room_at_all() {
        assert_eq!(Store::new(0).put(text("")), None);
    }

    #[test]
    fn the_last_place_of_the_largest_is_65_534() {
        let mut store = Store::new(65_535);
        let places: Vec<Option<Place>> = (0..65_536).map(|_| store.put(text(""))).collect();
        assert_eq!(places[65_534..], [Some(65_534), None]);
    }

    #[test]
    fn prints_values_and_cells() {
        let fields = vec![Value::Unit, Value::Number(-7), Value::Boolean(true), Value::Place(3)];
        let cell = Cell::Enum(EnumValue { number: 1, case: 15, fields });
        assert_eq!(cell.to_string(), "1.15(unit,-7,true,@3)");
        let bare = Cell::Enum(EnumValue { number: 0, case: 0, fields: vec![] });
        assert_eq!(bare.to_string(), "0.0()");
        assert_eq!(Cell::Text(vec![0, 10, 255]).to_string(), "x000aff");
        assert_eq!(text("").to_string(), "x");
    }
}
