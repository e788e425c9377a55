//! What a card to be grown is to be like: its size, its slips and what it
//! declares.

use crate::image::MOST_TEXT;
use crate::random::Random;
use crate::tree::Type;

/// How large a card may grow.
#[derive(Clone, Copy)]
pub struct Size {
    pub enums: usize,
    pub cases: usize,
    pub functions: usize,
    /// Records that a function's body is to have, more or less.
    pub body: usize,
    pub text: usize,
}

impl Size {
    /// Mostly small, so that many images stay a small file.
    pub fn draw(random: &mut Random) -> Size {
        match random.below(100) {
            0..=69 => Size { enums: 2, cases: 2, functions: 2, body: 12, text: 12 },
            70..=96 => Size { enums: 4, cases: 4, functions: 4, body: 24, text: 40 },
            97 => Size { enums: 32, cases: 3, functions: 16, body: 20, text: 60 },
            98 => Size { enums: 6, cases: 16, functions: 8, body: 90, text: MOST_TEXT },
            _ => Size { enums: 3, cases: 3, functions: 64, body: 10, text: 60 },
        }
    }

    pub fn smaller(self) -> Size {
        Size { body: self.body / 2, functions: self.functions * 3 / 4 + 1, ..self }
    }
}

/// The chances in 1000 that a choice of the generator goes wrong.
#[derive(Clone, Copy, Default)]
pub struct Slips {
    /// An expression of another type.
    pub types: usize,
    /// A LOCAL of any name.
    pub names: usize,
    /// A part fewer or more in a CALL or MAKE.
    pub counts: usize,
    /// Arms that don't fit their enum.
    pub arms: usize,
}

impl Slips {
    pub const NONE: Slips = Slips { types: 0, names: 0, counts: 0, arms: 0 };

    /// Slips of every sort, or mostly of one, since the commonest sort would
    /// otherwise nearly always come first.
    pub fn draw(random: &mut Random, chance: usize) -> Slips {
        let some = Slips { types: chance / 8, names: chance / 8, counts: chance, arms: chance };
        match random.below(5) {
            0 => Slips { types: chance, ..some },
            1 => Slips { names: 4 * chance, ..some },
            2 => Slips { counts: 6 * chance, ..some },
            3 => Slips { arms: 6 * chance, ..some },
            _ => Slips { types: chance, names: chance, counts: chance, arms: chance },
        }
    }
}

/// What a card declares.
pub struct Signature {
    /// For each enum, for each case, the types of its fields.
    pub enums: Vec<Vec<Vec<Type>>>,
    /// For each function, the types of its parameters and its result.
    pub functions: Vec<(Vec<Type>, Type)>,
}

/// Draws the enums and functions of a card.
pub fn declare(random: &mut Random, size: Size) -> Signature {
    let enum_count = random.between(0, size.enums);
    let least_functions = if enum_count == 0 || random.chance(980) { 1 } else { 0 };
    let function_count = random.between(least_functions, size.functions);
    let enums = (0..enum_count)
        .map(|_| {
            let cases = random.between(1, size.cases);
            (0..cases).map(|_| draw_types(random, enum_count)).collect()
        })
        .collect();
    let functions = (0..function_count)
        .map(|_| (draw_types(random, enum_count), draw_type(random, enum_count)))
        .collect();
    Signature { enums, functions }
}

fn draw_types(random: &mut Random, enums: usize) -> Vec<Type> {
    let count = random.pick(&[0, 0, 0, 1, 1, 1, 2, 2, 3, 4]);
    (0..count).map(|_| draw_type(random, enums)).collect()
}

pub fn draw_type(random: &mut Random, enums: usize) -> Type {
    if enums > 0 && random.chance(350) {
        return Type::Enum(random.below(enums) as u16);
    }
    random.pick(&[Type::Unit, Type::Number, Type::Number, Type::Boolean, Type::Text, Type::Text])
}
