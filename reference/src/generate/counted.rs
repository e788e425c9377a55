//! Grows cards to be run. Each function counts its first parameter, a number,
//! down to nothing: it calls itself by one less, and the functions before it
//! by small counts. So runs mostly end by themselves, some of them deep or
//! long.

use super::grow::{until_it_fits, Calls, Grower};
use super::plan::{declare, Signature, Size, Slips};
use crate::image::Draft;
use crate::random::Random;
use crate::shorthand::*;
use crate::tree::Type;

/// Grows a card of at most 512 records, all of it well typed.
pub fn card(random: &mut Random, size: Size) -> Draft {
    until_it_fits(size, |size| try_card(random, size))
}

fn try_card(random: &mut Random, size: Size) -> Draft {
    let signature = declare_counted(random, size);
    let text_length = random.below(size.text + 1);
    // Few different letters, so that texts are often equal.
    let text: Vec<u8> = (0..text_length).map(|_| random.pick(b"ab")).collect();
    let mut grower = Grower::new(random, &signature, text_length, Calls::Counted, Slips::NONE);
    grower.write(size.body);
    Draft { records: grower.records, text }
}

/// Draws enums and functions, and puts a count before all parameters.
fn declare_counted(random: &mut Random, size: Size) -> Signature {
    let mut signature = declare(random, size);
    for (number, cases) in signature.enums.iter_mut().enumerate() {
        // Values can be built of every enum, and of many to any depth.
        cases[0].clear();
        if let Some(fields) = cases.get_mut(1).filter(|_| random.chance(700)) {
            fields.truncate(3);
            fields.insert(random.below(fields.len() + 1), Type::Enum(number as u16));
        }
    }
    let enums = signature.enums.len();
    for (parameters, result) in &mut signature.functions {
        parameters.truncate(3);
        parameters.insert(0, Type::Number);
        if enums > 0 && random.chance(300) {
            *result = Type::Enum(random.below(enums) as u16);
        }
    }
    signature
}

/// What a body does when it isn't done yet.
#[derive(Clone, Copy)]
enum Step {
    /// Goes on with one less.
    Again,
    /// Does something else before or after that.
    Before,
    After,
    /// Goes on twice, which makes long runs.
    Twice,
    /// Names what it comes to.
    Named,
    /// Does it twice and compares what it comes to.
    Compared,
    /// Puts it into something larger.
    Within,
}

const STEPS: [Step; 13] = [
    Step::Again,
    Step::Again,
    Step::Before,
    Step::After,
    Step::Twice,
    Step::Twice,
    Step::Named,
    Step::Named,
    Step::Compared,
    Step::Within,
    Step::Within,
    Step::Within,
    Step::Within,
];

impl Grower<'_> {
    /// A body that is done when its count, parameter 0, is below 1.
    pub(super) fn counted_body(&mut self, result: Type, budget: usize) {
        self.records.extend([IF, LT, local(0), num(1)]);
        self.expression(result, budget / 3);
        self.step(result, budget / 3);
    }

    /// The arguments for a function that counts, which aren't many.
    pub(super) fn counted_arguments(&mut self, parameters: &[Type], budget: usize) {
        if self.random.chance(50) {
            self.expression(Type::Number, 1);
        } else {
            let count = self.random.pick(&[-1, 0, 0, 1, 1, 2, 2, 3, 4, 6]);
            self.records.push(num(count));
        }
        self.parts(&parameters[1..], budget);
    }

    fn step(&mut self, result: Type, budget: usize) {
        let half = budget / 2;
        let step = match result {
            Type::Enum(_) if self.random.chance(400) => Step::Within,
            _ => self.random.pick(&STEPS),
        };
        match step {
            Step::Again => self.again(budget),
            Step::Before => {
                self.records.push(SEQ);
                let first = self.any_type();
                self.expression(first, half);
                self.again(half);
            }
            Step::After => {
                self.records.push(SEQ);
                self.again(half);
                self.expression(result, half);
            }
            Step::Twice => {
                self.records.push(SEQ);
                self.again(half);
                self.again(half);
            }
            Step::Named => {
                let name = self.name();
                self.records.push(val(name));
                self.again(half);
                self.under(name, &[result], result, half);
            }
            Step::Compared => {
                self.records.extend([IF, EQ]);
                self.again(half);
                self.again(half);
                self.parts(&[result; 2], half);
            }
            Step::Within => self.within(result, budget),
        }
    }

    /// Calls the function itself by one less. This stands only where no other
    /// binding hides the count.
    fn again(&mut self, budget: usize) {
        let (parameters, _) = &self.signature.functions[self.function];
        self.records.push(call(parameters.len() as u8, self.function as u16));
        self.records.extend([ADD, local(0), num(-1)]);
        self.parts(&parameters[1..], budget);
    }

    /// What the function comes to by one less, as a part of an operator that
    /// gives the same type.
    fn within(&mut self, result: Type, budget: usize) {
        let sign = match result {
            Type::Unit => SEQ,
            Type::Number => self.random.pick(&[ADD, ADD, MUL, DIV, MOD]),
            Type::Boolean => EQ,
            Type::Text => CONCAT,
            Type::Enum(number) => return self.within_enum(number, budget),
        };
        self.records.push(sign);
        if self.random.chance(500) {
            self.again(budget / 2);
            self.expression(result, budget / 2);
        } else {
            self.expression(result, budget / 2);
            self.again(budget / 2);
        }
    }

    /// A value that holds one of the same enum, where a case can.
    fn within_enum(&mut self, number: u16, budget: usize) {
        let wanted = Type::Enum(number);
        let cases = &self.signature.enums[usize::from(number)];
        let Some(case) = cases.iter().position(|fields| fields.contains(&wanted)) else {
            return self.again(budget);
        };
        let fields = &cases[case];
        let inner = fields.iter().position(|field| *field == wanted);
        self.records.push(make(fields.len() as u8, number, case as i32));
        for (at, field) in fields.iter().enumerate() {
            if Some(at) == inner {
                self.again(budget / fields.len());
            } else {
                self.expression(*field, budget / fields.len());
            }
        }
    }
}
