//! Grows cards by type: each expression is asked for with the type that its
//! place needs. With slips, now and then something else is grown.

use super::plan::{declare, draw_type, Signature, Size, Slips};
use crate::image::{Draft, MOST_RECORDS};
use crate::random::Random;
use crate::record::Record;
use crate::shorthand::*;
use crate::tree::Type;

/// Grows a card of at most 512 records.
pub fn card(random: &mut Random, size: Size, slips: Slips) -> Draft {
    until_it_fits(size, |size| try_card(random, size, slips))
}

/// Tries smaller and smaller sizes until the records are few enough.
pub(super) fn until_it_fits(size: Size, mut try_card: impl FnMut(Size) -> Draft) -> Draft {
    let mut size = size;
    loop {
        let draft = try_card(size);
        if draft.records.len() <= MOST_RECORDS {
            return draft;
        }
        size = size.smaller();
    }
}

fn try_card(random: &mut Random, size: Size, slips: Slips) -> Draft {
    let signature = declare(random, size);
    let text_length = random.below(size.text + 1);
    let text: Vec<u8> = (0..text_length).map(|_| random.byte()).collect();
    let mut grower = Grower::new(random, &signature, text_length, Calls::Any, slips);
    grower.write(size.body);
    Draft { records: grower.records, text }
}

/// Which functions a body may call.
#[derive(Clone, Copy, PartialEq, Eq)]
pub(super) enum Calls {
    /// All, so that nothing makes a run end.
    Any,
    /// Those before it by small counts, and itself by a smaller count.
    Counted,
}

pub(super) struct Grower<'a> {
    pub(super) random: &'a mut Random,
    pub(super) signature: &'a Signature,
    text_length: usize,
    calls: Calls,
    slips: Slips,
    /// The function that is being written.
    pub(super) function: usize,
    scope: Vec<(u16, Type)>,
    pub(super) records: Vec<Record>,
}

impl<'a> Grower<'a> {
    pub(super) fn new(
        random: &'a mut Random,
        signature: &'a Signature,
        text_length: usize,
        calls: Calls,
        slips: Slips,
    ) -> Self {
        let (function, scope, records) = (0, Vec::new(), Vec::new());
        Grower { random, signature, text_length, calls, slips, function, scope, records }
    }

    pub(super) fn any_type(&mut self) -> Type {
        draw_type(self.random, self.signature.enums.len())
    }

    /// Writes all enums and functions, in order but mixed.
    pub(super) fn write(&mut self, body: usize) {
        let enums = self.signature.enums.len();
        let functions = self.signature.functions.len();
        let (mut next_enum, mut next_function) = (0, 0);
        while next_enum < enums || next_function < functions {
            let left = enums - next_enum + functions - next_function;
            if self.random.below(left) < enums - next_enum {
                self.write_enum(next_enum);
                next_enum += 1;
            } else {
                let budget = self.random.between(1, body.max(1));
                self.write_function(next_function, budget);
                next_function += 1;
            }
        }
    }

    fn write_enum(&mut self, number: usize) {
        self.records.push(enumeration(number as u16));
        for (at, fields) in self.signature.enums[number].iter().enumerate() {
            self.records.push(case(fields.len() as u8, at as u16));
            self.records.extend(fields.iter().map(|field| of(*field)));
        }
        self.records.push(CLOSE);
    }

    fn write_function(&mut self, number: usize, budget: usize) {
        let (parameters, result) = &self.signature.functions[number];
        self.records.push(def(parameters.len() as u8, number as u16));
        self.records.extend(parameters.iter().map(|parameter| of(*parameter)));
        self.records.push(of(*result));
        self.function = number;
        self.scope.clear();
        self.bind(0, parameters);
        match self.calls {
            Calls::Any => self.expression(*result, budget),
            Calls::Counted => self.counted_body(*result, budget),
        }
        self.records.push(CLOSE);
    }

    fn bind(&mut self, first: u16, types: &[Type]) {
        self.scope.extend((first..=u16::MAX).zip(types.iter().copied()));
    }

    pub(super) fn expression(&mut self, wanted: Type, budget: usize) {
        let wanted = if self.random.chance(self.slips.types) { self.any_type() } else { wanted };
        if budget <= 1 {
            return self.leaf(wanted);
        }
        let budget = budget - 1;
        match self.random.below(20) {
            0 => self.leaf(wanted),
            1 => self.sequence(wanted, budget),
            2 | 3 => self.condition(wanted, budget),
            4..=6 => self.value(wanted, budget),
            7..=9 => self.call(wanted, budget),
            10..=13 => self.choice(wanted, budget),
            14 => self.exit(wanted, budget),
            _ => self.operator(wanted, budget),
        }
    }

    fn leaf(&mut self, wanted: Type) {
        if self.random.chance(self.slips.names) {
            let name = self.name();
            return self.records.push(local(name));
        }
        let names = self.names_of(wanted);
        if !names.is_empty() && self.random.chance(600) {
            let name = self.random.pick(&names);
            return self.records.push(local(name));
        }
        match wanted {
            Type::Unit => self.records.push(UNIT),
            Type::Number => {
                let drawn = self.random.draw() as i32;
                let value = self.random.pick(&[0, 1, -1, 7, 50_000, i32::MIN, i32::MAX, drawn]);
                self.records.push(num(value));
            }
            Type::Boolean => {
                let value = self.random.chance(500);
                self.records.push(boolean(value));
            }
            Type::Text => self.text(),
            Type::Enum(number) => self.bare_case(number),
        }
    }

    /// The names whose newest binding has this type.
    fn names_of(&self, wanted: Type) -> Vec<u16> {
        let newest = |name: u16| self.scope.iter().rev().find(|(bound, _)| *bound == name);
        let all = self.scope.iter().map(|(name, _)| *name);
        all.filter(|name| newest(*name).is_some_and(|(_, found)| *found == wanted)).collect()
    }

    /// Few different names, so that they often hide one another.
    pub(super) fn name(&mut self) -> u16 {
        self.random.pick(&[0, 0, 1, 1, 2, 2, 3, 4, 5, 255, 256, 257, 65_531, 65_535])
    }

    fn text(&mut self) {
        let place = self.random.below(self.text_length + 1);
        let most = (self.text_length - place).min(24);
        let length = self.random.between(0, most);
        let length = if self.random.chance(200) { most } else { length };
        self.records.push(text(place as u16, length as i32));
    }

    /// A case without fields, or else an EXIT, which has any type.
    fn bare_case(&mut self, number: u16) {
        let cases = &self.signature.enums[usize::from(number)];
        match cases.iter().position(Vec::is_empty) {
            Some(bare) => self.records.push(make(0, number, bare as i32)),
            None => self.exit(Type::Enum(number), 1),
        }
    }

    fn exit(&mut self, wanted: Type, budget: usize) {
        self.records.extend([EXIT, of(wanted)]);
        self.expression(Type::Text, budget);
    }

    fn sequence(&mut self, wanted: Type, budget: usize) {
        self.records.push(SEQ);
        let first = self.any_type();
        self.parts(&[first, wanted], budget);
    }

    fn condition(&mut self, wanted: Type, budget: usize) {
        self.records.push(IF);
        self.parts(&[Type::Boolean, wanted, wanted], budget);
    }

    fn value(&mut self, wanted: Type, budget: usize) {
        let name = self.name();
        let bound = self.any_type();
        self.records.push(val(name));
        let first = self.random.between(1, budget);
        self.expression(bound, first);
        self.under(name, &[bound], wanted, budget.saturating_sub(first));
    }

    pub(super) fn under(&mut self, first: u16, types: &[Type], wanted: Type, budget: usize) {
        let outside = self.scope.len();
        self.bind(first, types);
        self.expression(wanted, budget);
        self.scope.truncate(outside);
    }

    /// An operator that gives this type; a MAKE where the type is an enum.
    fn operator(&mut self, wanted: Type, budget: usize) {
        match wanted {
            Type::Unit => self.sequence(wanted, budget),
            Type::Number => {
                let sign = self.random.pick(&[ADD, MUL, DIV, MOD]);
                self.records.push(sign);
                self.parts(&[Type::Number; 2], budget);
            }
            Type::Boolean if self.random.chance(400) => {
                self.records.push(LT);
                self.parts(&[Type::Number; 2], budget);
            }
            Type::Boolean => {
                self.records.push(EQ);
                let compared = self.any_type();
                self.parts(&[compared; 2], budget);
            }
            Type::Text => {
                self.records.push(CONCAT);
                self.parts(&[Type::Text; 2], budget);
            }
            Type::Enum(number) => self.make(number, budget),
        }
    }

    fn make(&mut self, number: u16, budget: usize) {
        let cases = &self.signature.enums[usize::from(number)];
        let case = self.random.below(cases.len());
        let fields = self.maybe_miscounted(&cases[case]);
        self.records.push(make(fields.len() as u8, number, case as i32));
        self.parts(&fields, budget);
    }

    fn call(&mut self, wanted: Type, budget: usize) {
        let functions = &self.signature.functions;
        let callees = match self.calls {
            Calls::Any => functions.len(),
            Calls::Counted => self.function,
        };
        let fitting: Vec<usize> = (0..callees).filter(|at| functions[*at].1 == wanted).collect();
        if fitting.is_empty() {
            return self.operator(wanted, budget);
        }
        let callee = self.random.pick(&fitting);
        let parameters = self.maybe_miscounted(&functions[callee].0);
        self.records.push(call(parameters.len() as u8, callee as u16));
        match self.calls {
            Calls::Any => self.parts(&parameters, budget),
            Calls::Counted => self.counted_arguments(&parameters, budget),
        }
    }

    /// What is declared, or with a slip one part fewer or more.
    fn maybe_miscounted(&mut self, declared: &[Type]) -> Vec<Type> {
        let mut types = declared.to_vec();
        if self.random.chance(self.slips.counts) {
            let at = self.random.below(types.len() + 1);
            if at < types.len() && self.random.chance(500) || types.len() == 4 {
                types.remove(at.min(types.len() - 1));
            } else {
                let surplus = self.any_type();
                types.insert(at, surplus);
            }
        }
        types
    }

    pub(super) fn parts(&mut self, types: &[Type], budget: usize) {
        let mut left = budget;
        for (at, part) in types.iter().enumerate() {
            let still = types.len() - at;
            let share = if still == 1 { left } else { self.random.below(2 * left / still + 1) };
            self.expression(*part, share);
            left = left.saturating_sub(share);
        }
    }

    fn choice(&mut self, wanted: Type, budget: usize) {
        let enums = &self.signature.enums;
        if enums.is_empty() {
            return self.condition(wanted, budget);
        }
        let number = self.random.below(enums.len());
        if enums[number].len() > budget {
            return self.value(wanted, budget);
        }
        self.records.push(MATCH);
        let share = budget / 3;
        self.expression(Type::Enum(number as u16), share);
        let arms = self.arms(enums[number].len());
        for at in &arms {
            self.arm(*at, &enums[number], wanted, (budget - share) / arms.len());
        }
        self.records.push(CLOSE);
    }

    /// The cases in any order, or with a slip one missing, doubled or foreign.
    fn arms(&mut self, count: usize) -> Vec<usize> {
        let mut arms: Vec<usize> = (0..count).collect();
        self.random.shuffle(&mut arms);
        if self.random.chance(self.slips.arms) {
            let at = self.random.below(count);
            match self.random.below(4) {
                0 if count > 1 => drop(arms.remove(at)),
                1 => arms[at] = self.random.below(16),
                2 => arms.push(arms[at]),
                _ => arms.insert(at, count.min(15)),
            }
        }
        arms
    }

    fn arm(&mut self, at: usize, cases: &[Vec<Type>], wanted: Type, budget: usize) {
        let fields = cases.get(at).map_or(&[][..], Vec::as_slice);
        let miscounted = self.random.chance(self.slips.arms / 2);
        let names = if miscounted { self.random.below(5) } else { fields.len() };
        // The names must end by the largest name there is.
        let most = (65_536 - names.max(fields.len())).min(65_535) as u16;
        let first = self.name().min(most);
        self.records.push(arm(names as u8, first, at as i32));
        self.under(first, fields, wanted, budget);
    }
}
