//! Test 8: the order of the records, read by recursive descent into a tree.
//!
//! Only kinds and each record's own counts matter here. Every step is handed
//! the innermost open group, so the first record that doesn't fit, or the end
//! of the records where one must come, can name it. A group that is still open
//! at the end is never closed for the card.

use crate::image::Image;
use crate::record::{kind, Record};
use crate::tree::{Arm, Card, Enum, Expr, Form, Function, Sign, Type};
use crate::verdict::Refusal;

/// The record that opened the innermost group, if one is open.
type Group = Option<usize>;
type Parsed<T> = Result<T, Refusal>;

pub fn parse(image: &Image) -> Parsed<Card> {
    let mut parser = Parser { records: &image.records, at: 0 };
    let mut card = Card { text: image.text.clone(), ..Card::default() };
    while let Some(kind) = parser.peek() {
        match kind {
            kind::ENUM => card.enums.push(parser.enumeration()?),
            kind::DEF => card.functions.push(parser.function()?),
            _ => return Err(Refusal::misplaced(parser.at, None)),
        }
    }
    Ok(card)
}

struct Parser<'a> {
    records: &'a [Record],
    at: usize,
}

impl Parser<'_> {
    fn peek(&self) -> Option<u8> {
        self.records.get(self.at).map(|record| record.kind)
    }

    /// Takes the next record if it is of this kind. At the end of the records
    /// the refusal names their count, which is where the reader stands.
    fn expect(&mut self, kind: u8, group: Group) -> Parsed<Record> {
        match self.records.get(self.at) {
            Some(&record) if record.kind == kind => {
                self.at += 1;
                Ok(record)
            }
            _ => Err(Refusal::misplaced(self.at, group)),
        }
    }

    fn enumeration(&mut self) -> Parsed<Enum> {
        let group = Some(self.at);
        self.expect(kind::ENUM, None)?;
        let mut cases = vec![self.case(group)?];
        while self.peek() == Some(kind::CASE) {
            cases.push(self.case(group)?);
        }
        self.expect(kind::CLOSE, group)?;
        Ok(Enum { cases })
    }

    fn case(&mut self, group: Group) -> Parsed<Vec<Type>> {
        let case = self.expect(kind::CASE, group)?;
        self.types(case.a, group)
    }

    fn types(&mut self, count: u8, group: Group) -> Parsed<Vec<Type>> {
        (0..count).map(|_| self.type_name(group)).collect()
    }

    fn type_name(&mut self, group: Group) -> Parsed<Type> {
        Ok(Type::of(&self.expect(kind::TYPE, group)?))
    }

    fn function(&mut self) -> Parsed<Function> {
        let at = self.at;
        let group = Some(at);
        let def = self.expect(kind::DEF, None)?;
        let parameters = self.types(def.a, group)?;
        let result = self.type_name(group)?;
        let body = self.expression(group)?;
        self.expect(kind::CLOSE, group)?;
        Ok(Function { at, parameters, result, body })
    }

    fn expression(&mut self, group: Group) -> Parsed<Expr> {
        let at = self.at;
        let Some(&record) = self.records.get(at) else {
            return Err(Refusal::misplaced(at, group));
        };
        self.at += 1;
        let form = match record.kind {
            kind::UNIT => Form::Unit,
            kind::NUM => Form::Number(record.c),
            kind::BOOL => Form::Boolean(record.a == 1),
            kind::STR => Form::Text { place: usize::from(record.b), length: c_of(record) },
            kind::LOCAL => Form::Local(record.b),
            kind::ADD => Form::Arithmetic(Sign::Add, self.two(group)?),
            kind::MUL => Form::Arithmetic(Sign::Mul, self.two(group)?),
            kind::DIV => Form::Arithmetic(Sign::Div, self.two(group)?),
            kind::MOD => Form::Arithmetic(Sign::Mod, self.two(group)?),
            kind::CONCAT => Form::Concat(self.two(group)?),
            kind::EQ => Form::Equal(self.two(group)?),
            kind::LT => Form::Less(self.two(group)?),
            kind::SEQ => Form::Sequence(self.two(group)?),
            kind::IF => Form::If(self.three(group)?),
            kind::VAL => Form::Val { name: record.b, parts: self.two(group)? },
            kind::CALL => self.call(record, group)?,
            kind::MAKE => self.make(record, group)?,
            kind::MATCH => self.arms_of(at)?,
            kind::EXIT => self.exit(group)?,
            _ => return Err(Refusal::misplaced(at, group)),
        };
        Ok(Expr { at, form })
    }

    fn two(&mut self, group: Group) -> Parsed<Box<[Expr; 2]>> {
        let first = self.expression(group)?;
        let second = self.expression(group)?;
        Ok(Box::new([first, second]))
    }

    fn three(&mut self, group: Group) -> Parsed<Box<[Expr; 3]>> {
        let first = self.expression(group)?;
        let second = self.expression(group)?;
        let third = self.expression(group)?;
        Ok(Box::new([first, second, third]))
    }

    fn arguments(&mut self, count: u8, group: Group) -> Parsed<Vec<Expr>> {
        let mut arguments = Vec::new();
        for _ in 0..count {
            arguments.push(self.expression(group)?);
        }
        Ok(arguments)
    }

    fn call(&mut self, record: Record, group: Group) -> Parsed<Form> {
        let function = usize::from(record.b);
        Ok(Form::Call { function, arguments: self.arguments(record.a, group)? })
    }

    fn make(&mut self, record: Record, group: Group) -> Parsed<Form> {
        let (number, case) = (record.b, c_of(record));
        Ok(Form::Make { number, case, arguments: self.arguments(record.a, group)? })
    }

    /// The rest of a MATCH, which from its own record on is the open group.
    fn arms_of(&mut self, at: usize) -> Parsed<Form> {
        let group = Some(at);
        let subject = Box::new(self.expression(group)?);
        let mut arms = vec![self.arm(group)?];
        while self.peek() == Some(kind::ARM) {
            arms.push(self.arm(group)?);
        }
        self.expect(kind::CLOSE, group)?;
        Ok(Form::Match { subject, arms })
    }

    fn arm(&mut self, group: Group) -> Parsed<Arm> {
        let record = self.expect(kind::ARM, group)?;
        Ok(Arm {
            case: c_of(record),
            names: usize::from(record.a),
            first: record.b,
            body: self.expression(group)?,
        })
    }

    fn exit(&mut self, group: Group) -> Parsed<Form> {
        let result = self.type_name(group)?;
        Ok(Form::Exit { result, text: Box::new(self.expression(group)?) })
    }
}

/// The case of a MAKE or ARM, or the length of a STR, once the fields of the
/// record are known to be in range.
fn c_of(record: Record) -> usize {
    usize::try_from(record.c).expect("it is never negative once test 7 is passed")
}
