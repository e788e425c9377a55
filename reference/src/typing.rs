//! Tests 10 to 13: types, in typing order, so the first fault met is the one.

use crate::scope::Scope;
use crate::tree::{Arm, Card, Expr, Form, Function, Type};
use crate::verdict::Refusal;

type Typed = Result<Type, Refusal>;

/// Types every function in card order.
pub fn check(card: &Card) -> Result<(), Refusal> {
    card.functions.iter().try_for_each(|function| check_function(card, function))
}

fn check_function(card: &Card, function: &Function) -> Result<(), Refusal> {
    let mut typer = Typer { card, scope: Scope::of(&function.parameters) };
    let found = typer.type_of(&function.body)?;
    give((), found == function.result, function.at)
}

/// The value, unless a type is wrong at this record.
fn give<T>(value: T, right: bool, at: usize) -> Result<T, Refusal> {
    if right {
        Ok(value)
    } else {
        Err(Refusal::wrong_type(at))
    }
}

struct Typer<'a> {
    card: &'a Card,
    scope: Scope<Type>,
}

impl<'a> Typer<'a> {
    /// Types an expression that sees some more names than its surroundings.
    fn type_under(&mut self, first: u16, types: &[Type], body: &Expr) -> Typed {
        let outside = self.scope.depth();
        self.scope.bind(first, types);
        let found = self.type_of(body);
        self.scope.return_to(outside);
        found
    }

    fn type_of(&mut self, expr: &Expr) -> Typed {
        let (at, card) = (expr.at, self.card);
        match &expr.form {
            Form::Unit => Ok(Type::Unit),
            Form::Number(_) => Ok(Type::Number),
            Form::Boolean(_) => Ok(Type::Boolean),
            Form::Text { .. } => Ok(Type::Text),
            Form::Local(name) => self.scope.newest(*name).ok_or(Refusal::unbound(at)),
            Form::Arithmetic(_, parts) => self.both(at, parts, Type::Number, Type::Number),
            Form::Concat(parts) => self.both(at, parts, Type::Text, Type::Text),
            Form::Less(parts) => self.both(at, parts, Type::Number, Type::Boolean),
            Form::Equal(parts) => {
                let [left, right] = self.each(parts)?;
                give(Type::Boolean, left == right, at)
            }
            Form::Sequence(parts) => self.each(parts).map(|[_, second]| second),
            Form::If(parts) => self.either(at, parts),
            Form::Val { name, parts } => {
                let bound = self.type_of(&parts[0])?;
                self.type_under(*name, &[bound], &parts[1])
            }
            Form::Call { function, arguments } => {
                let callee = &card.functions[*function];
                self.apply(at, arguments, &callee.parameters, callee.result)
            }
            Form::Make { number, case, arguments } => {
                let fields = &self.cases(*number)[*case];
                self.apply(at, arguments, fields, Type::Enum(*number))
            }
            Form::Match { subject, arms } => self.choose(at, subject, arms),
            Form::Exit { result, text } => {
                let found = self.type_of(text)?;
                give(*result, found == Type::Text, at)
            }
        }
    }

    fn cases(&self, number: u16) -> &'a [Vec<Type>] {
        &self.card.enums[usize::from(number)].cases
    }

    fn each<const N: usize>(&mut self, parts: &[Expr; N]) -> Result<[Type; N], Refusal> {
        let mut types = [Type::Unit; N];
        for (found, part) in types.iter_mut().zip(parts) {
            *found = self.type_of(part)?;
        }
        Ok(types)
    }

    /// An operator that takes two of one fixed type.
    fn both(&mut self, at: usize, parts: &[Expr; 2], taken: Type, given: Type) -> Typed {
        let types = self.each(parts)?;
        give(given, types == [taken, taken], at)
    }

    /// IF: all three parts are typed, whatever the condition may be worth.
    fn either(&mut self, at: usize, parts: &[Expr; 3]) -> Typed {
        let [condition, yes, no] = self.each(parts)?;
        give(yes, condition == Type::Boolean && yes == no, at)
    }

    /// CALL and MAKE: every part first, surplus ones too, then their count,
    /// then their types.
    fn apply(&mut self, at: usize, parts: &[Expr], declared: &[Type], given: Type) -> Typed {
        let mut types = Vec::new();
        for part in parts {
            types.push(self.type_of(part)?);
        }
        if types.len() != declared.len() {
            return Err(Refusal::wrong_count(at));
        }
        give(given, types == declared, at)
    }

    /// MATCH: its subject, then the look of its arms, then the arms' own types.
    fn choose(&mut self, at: usize, subject: &Expr, arms: &[Arm]) -> Typed {
        let Type::Enum(number) = self.type_of(subject)? else {
            return Err(Refusal::wrong_type(at));
        };
        let cases = self.cases(number);
        if !arms_fit(arms, cases) {
            return Err(Refusal::wrong_arms(at));
        }
        let mut types = Vec::new();
        for arm in arms {
            types.push(self.type_under(arm.first, &cases[arm.case], &arm.body)?);
        }
        give(types[0], types.iter().all(|found| *found == types[0]), at)
    }
}

/// One arm for each case, with a name for each field of the case.
fn arms_fit(arms: &[Arm], cases: &[Vec<Type>]) -> bool {
    let mut seen = vec![false; cases.len()];
    for arm in arms {
        match cases.get(arm.case) {
            Some(fields) if fields.len() == arm.names && !seen[arm.case] => seen[arm.case] = true,
            _ => return false,
        }
    }
    seen.into_iter().all(|met| met)
}
