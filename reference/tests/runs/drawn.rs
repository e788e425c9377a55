//! What holds for every run, tried on drawn ones.

use reference::ended::{granted, Ended, Ending, Shown};
use reference::generate::starts::{starts, Start};
use reference::image::read;
use reference::load;
use reference::record::kind;
use reference::run::{run, Limits};
use reference::start::{Argument, Fault};
use reference::store::{Cell, EnumValue, Value};
use reference::tree::{Card, Expr, Form, Type};

/// A drawn start with its card.
struct Drawn {
    start: Start,
    card: Card,
}

impl Drawn {
    fn list(seed: u64, count: usize) -> impl Iterator<Item = Drawn> {
        starts(seed, count).map(|start| {
            let card = load(&start.image).expect("the card is good");
            Drawn { start, card }
        })
    }

    fn run(&self, most: u16, limits: Limits) -> Result<Ended, Fault> {
        run(&self.card, self.start.function, &self.start.arguments, most, limits)
    }

    /// How it ends over its own store; nothing where the texts don't fit that.
    fn ended(&self) -> Option<Ended> {
        match self.run(self.start.most, Limits::PLOTTER) {
            Ok(ended) => Some(ended),
            Err(fault) => {
                assert_eq!(fault, Fault::FullStore, "{:?}", self.start);
                assert!(self.texts() > usize::from(self.start.most), "{:?}", self.start);
                None
            }
        }
    }

    fn texts(&self) -> usize {
        let arguments = self.start.arguments.iter();
        arguments.filter(|argument| matches!(argument, Argument::Text(_))).count()
    }

    fn result(&self) -> Type {
        self.card.functions[self.start.function].result
    }

    /// The kinds of the records that are opened, in order. With fewer units a
    /// run ends by naming the record that was to be opened next.
    fn opened(&self, ended: &Ended) -> Vec<(usize, u8)> {
        let records = read(&self.start.image).expect("the card is good").records;
        let next = |units| {
            let limits = Limits { units, ..Limits::PLOTTER };
            let short = self.run(self.start.most, limits).expect("it was started before");
            short.record.expect("an overrun names a record")
        };
        (0..ended.units).map(next).map(|at| (at, records[at].kind)).collect()
    }
}

/// The type of a value over cells, if it has one.
fn type_of(cells: &[Cell], value: Value) -> Option<Type> {
    match value {
        Value::Unit => Some(Type::Unit),
        Value::Number(_) => Some(Type::Number),
        Value::Boolean(_) => Some(Type::Boolean),
        Value::Place(place) => cells.get(usize::from(place)).map(|cell| match cell {
            Cell::Text(_) => Type::Text,
            Cell::Enum(EnumValue { number, .. }) => Type::Enum(*number),
        }),
    }
}

/// Whether a cell is as the card declares it, over the cells before it.
fn is_sound(card: &Card, before: &[Cell], cell: &Cell) -> bool {
    match cell {
        Cell::Text(bytes) => bytes.len() <= 24,
        Cell::Enum(EnumValue { number, case, fields }) => {
            let declared = &card.enums[usize::from(*number)].cases[*case];
            let found: Option<Vec<Type>> =
                fields.iter().map(|field| type_of(before, *field)).collect();
            found.as_ref() == Some(declared)
        }
    }
}

/// Whether a run with this ending may name a record of this kind.
fn may_name(ending: Ending, kind: u8) -> bool {
    match ending {
        Ending::Value => false,
        Ending::Exit => kind == kind::EXIT,
        Ending::ZeroDivisor => matches!(kind, kind::DIV | kind::MOD),
        Ending::OutOfRange => matches!(kind, kind::ADD | kind::MUL | kind::DIV),
        Ending::LongText => kind == kind::CONCAT,
        Ending::FullStore => matches!(kind, kind::STR | kind::CONCAT | kind::MAKE),
        Ending::TooDeep | Ending::Overrun => {
            matches!(kind, kind::UNIT..=kind::MATCH | kind::EXIT)
        }
    }
}

#[test]
fn every_run_ends_and_is_not_stuck() {
    for drawn in Drawn::list(11, 6000) {
        let Some(ended) = drawn.ended() else { continue };
        let found = ended.value.and_then(|value| type_of(&ended.cells, value));
        match ended.ending {
            Ending::Value => assert_eq!(found, Some(drawn.result())),
            Ending::Exit => assert_eq!(found, Some(Type::Text)),
            _ => assert_eq!(ended.value, None),
        }
        let records = read(&drawn.start.image).expect("the card is good").records;
        match ended.record {
            None => assert_eq!(ended.ending, Ending::Value),
            Some(at) => assert!(may_name(ended.ending, records[at].kind), "{ended}"),
        }
        match ended.ending {
            Ending::Overrun => assert_eq!(ended.units, 1_000_000),
            _ => assert!((1..=1_000_000).contains(&ended.units)),
        }
    }
}

#[test]
fn cells_are_as_declared_and_within_the_most() {
    for drawn in Drawn::list(12, 3000) {
        let Some(ended) = drawn.ended() else { continue };
        for (at, cell) in ended.cells.iter().enumerate() {
            assert!(is_sound(&drawn.card, &ended.cells[..at], cell), "{:?}", drawn.start);
        }
        let most = usize::from(drawn.start.most);
        assert!(ended.cells.len() <= most);
        assert!(ended.ending != Ending::FullStore || ended.cells.len() == most);
    }
}

#[test]
fn fewer_units_show_the_same_run_going() {
    for drawn in Drawn::list(13, 400) {
        let Some(ended) = drawn.ended().filter(|ended| ended.units <= 300) else { continue };
        for units in 0..=ended.units + 2 {
            let limits = Limits { units, ..Limits::PLOTTER };
            let short = drawn.run(drawn.start.most, limits).expect("it was started before");
            match granted(&ended, units) {
                Shown::Ended(shown) => assert_eq!(short, *shown),
                Shown::Going { units } => {
                    assert_eq!((short.ending, short.units), (Ending::Overrun, units));
                    assert!(ended.cells.starts_with(&short.cells));
                }
            }
        }
    }
}

#[test]
fn another_store_makes_no_other_difference() {
    for drawn in Drawn::list(14, 1500) {
        let Some(ended) = drawn.ended() else { continue };
        for most in [0, 1, 2, 5, 40, 3000, u16::MAX] {
            match drawn.run(most, Limits::PLOTTER) {
                Err(fault) => {
                    assert_eq!(fault, Fault::FullStore);
                    assert!(drawn.texts() > usize::from(most));
                }
                Ok(other) => assert_alike(&ended, &other),
            }
        }
    }
}

/// Two runs of one start over different stores: alike but for a full store,
/// which ends a run no later.
fn assert_alike(one: &Ended, other: &Ended) {
    match (one.ending == Ending::FullStore, other.ending == Ending::FullStore) {
        (false, false) => assert_eq!(one, other),
        (true, false) => assert_cut_short(one, other),
        (false, true) => assert_cut_short(other, one),
        (true, true) if one.cells.len() <= other.cells.len() => assert_cut_short(one, other),
        (true, true) => assert_cut_short(other, one),
    }
}

fn assert_cut_short(short: &Ended, whole: &Ended) {
    assert!(short.units <= whole.units);
    assert!(whole.cells.starts_with(&short.cells));
}

#[test]
fn fewer_open_judgements_make_no_other_difference() {
    for drawn in Drawn::list(15, 1000) {
        let Some(ended) = drawn.ended() else { continue };
        for open in [0, 1, 2, 4, 8, 20, 100, 255] {
            let limits = Limits { open, ..Limits::PLOTTER };
            let other = drawn.run(drawn.start.most, limits).expect("it was started before");
            if other.ending == Ending::TooDeep {
                assert_cut_short(&other, &ended);
            } else {
                assert_eq!(other, ended);
            }
        }
    }
}

#[test]
fn every_ending_comes_up() {
    let mut met = [0; 8];
    for ended in Drawn::list(16, 3000).filter_map(|drawn| drawn.ended()) {
        met[usize::from(ended.ending.number())] += 1;
    }
    assert!(met.iter().all(|count| *count >= 8), "{met:?}");
}

#[test]
fn every_kind_is_evaluated_and_functions_recur() {
    let mut met = [0; 256];
    let mut recurring = 0;
    for drawn in Drawn::list(17, 600) {
        let Some(ended) = drawn.ended().filter(|ended| ended.units <= 300) else { continue };
        let opened = drawn.opened(&ended);
        opened.iter().for_each(|(_, kind)| met[usize::from(*kind)] += 1);
        let start = drawn.card.functions[drawn.start.function].body.at;
        recurring += usize::from(opened.iter().filter(|(at, _)| *at == start).count() > 1);
    }
    let expressions = kind::ALL.into_iter().filter(|kind| *kind >= kind::UNIT);
    for kind in expressions.filter(|kind| *kind != kind::ARM) {
        assert!(met[usize::from(kind)] >= 20, "kind {kind}: {}", met[usize::from(kind)]);
    }
    assert!(recurring >= 100, "{recurring}");
}

#[test]
fn values_nest_and_texts_are_long() {
    let (mut deep, mut long, mut largest) = (0, 0, 0);
    for ended in Drawn::list(18, 3000).filter_map(|drawn| drawn.ended()) {
        deep += usize::from(deepest(&ended.cells) >= 5);
        let is_long = |cell: &Cell| matches!(cell, Cell::Text(bytes) if bytes.len() == 24);
        long += usize::from(ended.cells.iter().any(is_long));
        largest += usize::from(ended.cells.len() == 65_535);
    }
    assert!(deep >= 50 && long >= 100 && largest >= 2, "{deep} {long} {largest}");
}

/// How deep the enum values among these cells lie within one another at most.
fn deepest(cells: &[Cell]) -> usize {
    let mut depths: Vec<usize> = Vec::new();
    for cell in cells {
        depths.push(match cell {
            Cell::Text(_) => 0,
            Cell::Enum(EnumValue { fields, .. }) => {
                let inner = fields.iter().map(|field| match field {
                    Value::Place(place) => depths[usize::from(*place)],
                    _ => 0,
                });
                1 + inner.max().unwrap_or(0)
            }
        });
    }
    depths.into_iter().max().unwrap_or(0)
}

#[test]
fn names_hide_one_another() {
    let hiding = Drawn::list(19, 500)
        .filter(|drawn| {
            drawn.card.functions.iter().any(|function| {
                let names = 0..function.parameters.len() as u16;
                hides(&function.body, &names.collect::<Vec<_>>())
            })
        })
        .count();
    assert!(hiding >= 100, "{hiding}");
}

/// Whether somewhere a name is bound that is bound already.
fn hides(expr: &Expr, names: &[u16]) -> bool {
    let any = |parts: &[Expr]| parts.iter().any(|part| hides(part, names));
    let under = |new: &[u16], body: &Expr| {
        new.iter().any(|name| names.contains(name)) || hides(body, &[names, new].concat())
    };
    match &expr.form {
        Form::Unit | Form::Number(_) | Form::Boolean(_) | Form::Text { .. } | Form::Local(_) => {
            false
        }
        Form::Arithmetic(_, parts)
        | Form::Concat(parts)
        | Form::Equal(parts)
        | Form::Less(parts)
        | Form::Sequence(parts) => any(&parts[..]),
        Form::If(parts) => any(&parts[..]),
        Form::Val { name, parts } => hides(&parts[0], names) || under(&[*name], &parts[1]),
        Form::Call { arguments, .. } | Form::Make { arguments, .. } => any(arguments),
        Form::Match { subject, arms } => {
            let within = arms.iter().any(|arm| {
                let new: Vec<u16> = (arm.first..=u16::MAX).take(arm.names).collect();
                under(&new, &arm.body)
            });
            hides(subject, names) || within
        }
        Form::Exit { text, .. } => hides(text, names),
    }
}

#[test]
fn one_seed_gives_one_list() {
    assert!(starts(20, 300).eq(starts(20, 300)));
    assert!(!starts(20, 300).eq(starts(21, 300)));
}
