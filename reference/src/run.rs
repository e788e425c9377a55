//! Evaluates a function of a card by the rules. A judgement is a call here, so
//! what is open lies on Rust's own stack.

use crate::ended::{Ended, Ending};
use crate::scope::Scope;
use crate::start::{start, Argument, Fault, Started};
use crate::store::{Cell, EnumValue, Store, Value, MOST_BYTES};
use crate::tree::{Arm, Card, Expr, Form, Sign};

/// How much a run may take.
#[derive(Clone, Copy, Debug, PartialEq, Eq)]
pub struct Limits {
    /// Judgements opened in all.
    pub units: u32,
    /// Judgements open at once. Some thousands are too many for the stack.
    pub open: u32,
}

impl Limits {
    /// What a plotter allows.
    pub const PLOTTER: Limits = Limits { units: 1_000_000, open: 256 };
}

/// Runs a function on these arguments, over an empty store with this most.
pub fn run(
    card: &Card,
    function: usize,
    arguments: &[Argument],
    most: u16,
    limits: Limits,
) -> Result<Ended, Fault> {
    let Started { function, values, store } = start(card, function, arguments, most)?;
    let mut run = Run { card, limits, store, units: 0, open: 0 };
    let (ending, record, value) = match run.evaluate(&function.body, &mut Scope::of(&values)) {
        Ok(value) => (Ending::Value, None, Some(value)),
        Err(Stop::Exit { at, text }) => (Ending::Exit, Some(at), Some(text)),
        Err(Stop::Failed { ending, at }) => (ending, Some(at), None),
        Err(Stop::Stuck { at }) => return Err(Fault::Stuck(at)),
    };
    Ok(Ended { ending, record, value, units: run.units, cells: run.store.into_cells() })
}

/// What keeps a judgement from its value, and ends the run.
enum Stop {
    Exit { at: usize, text: Value },
    Failed { ending: Ending, at: usize },
    Stuck { at: usize },
}

impl Stop {
    fn failed(ending: Ending, at: usize) -> Stop {
        Stop::Failed { ending, at }
    }
}

type Judged<T> = Result<T, Stop>;

struct Run<'a> {
    card: &'a Card,
    limits: Limits,
    store: Store,
    /// Judgements opened so far.
    units: u32,
    /// Judgements open now.
    open: u32,
}

impl Run<'_> {
    /// Opens a judgement, lets its rule find the value, and closes it.
    fn judge<T>(&mut self, at: usize, rule: impl FnOnce(&mut Self) -> Judged<T>) -> Judged<T> {
        if self.units == self.limits.units {
            return Err(Stop::failed(Ending::Overrun, at));
        }
        self.units += 1;
        if self.open == self.limits.open {
            return Err(Stop::failed(Ending::TooDeep, at));
        }
        self.open += 1;
        let value = rule(self)?;
        self.open -= 1;
        Ok(value)
    }

    fn evaluate(&mut self, expr: &Expr, scope: &mut Scope<Value>) -> Judged<Value> {
        self.judge(expr.at, |run| run.apply(expr, scope))
    }

    /// Evaluates an expression that sees some more names than its surroundings.
    fn evaluate_under(
        &mut self,
        first: u16,
        values: &[Value],
        body: &Expr,
        scope: &mut Scope<Value>,
    ) -> Judged<Value> {
        let outside = scope.depth();
        scope.bind(first, values);
        let value = self.evaluate(body, scope);
        scope.return_to(outside);
        value
    }

    /// Evaluates the parts that come first, and then applies the rule.
    fn apply(&mut self, expr: &Expr, scope: &mut Scope<Value>) -> Judged<Value> {
        let at = expr.at;
        match &expr.form {
            Form::Unit => Ok(Value::Unit),
            Form::Number(number) => Ok(Value::Number(*number)),
            Form::Boolean(truth) => Ok(Value::Boolean(*truth)),
            Form::Text { place, length } => self.literal(at, *place, *length),
            Form::Local(name) => scope.newest(*name).ok_or(Stop::Stuck { at }),
            Form::Arithmetic(sign, parts) => {
                let [left, right] = self.both(parts, scope)?;
                calculate(at, *sign, number(at, left)?, number(at, right)?)
            }
            Form::Concat(parts) => {
                let [left, right] = self.both(parts, scope)?;
                self.join(at, left, right)
            }
            Form::Equal(parts) => {
                let [left, right] = self.both(parts, scope)?;
                self.compare(at, left, right).map(Value::Boolean)
            }
            Form::Less(parts) => {
                let [left, right] = self.both(parts, scope)?;
                Ok(Value::Boolean(number(at, left)? < number(at, right)?))
            }
            Form::Sequence(parts) => {
                self.evaluate(&parts[0], scope)?;
                self.evaluate(&parts[1], scope)
            }
            Form::If(parts) => {
                let [condition, yes, no] = parts.as_ref();
                let condition = self.evaluate(condition, scope)?;
                self.evaluate(if boolean(at, condition)? { yes } else { no }, scope)
            }
            Form::Val { name, parts } => {
                let value = self.evaluate(&parts[0], scope)?;
                self.evaluate_under(*name, &[value], &parts[1], scope)
            }
            Form::Call { function, arguments } => self.call(at, *function, arguments, scope),
            Form::Make { number, case, arguments } => {
                let fields = self.each(arguments, scope)?;
                self.put(at, Cell::Enum(EnumValue { number: *number, case: *case, fields }))
            }
            Form::Match { subject, arms } => self.choose(at, subject, arms, scope),
            Form::Exit { text, .. } => self.exit(at, text, scope),
        }
    }

    fn both(&mut self, parts: &[Expr; 2], scope: &mut Scope<Value>) -> Judged<[Value; 2]> {
        let left = self.evaluate(&parts[0], scope)?;
        let right = self.evaluate(&parts[1], scope)?;
        Ok([left, right])
    }

    fn each(&mut self, parts: &[Expr], scope: &mut Scope<Value>) -> Judged<Vec<Value>> {
        parts.iter().map(|part| self.evaluate(part, scope)).collect()
    }

    fn put(&mut self, at: usize, cell: Cell) -> Judged<Value> {
        let place = self.store.put(cell).ok_or(Stop::failed(Ending::FullStore, at))?;
        Ok(Value::Place(place))
    }

    fn cell(&self, at: usize, value: Value) -> Judged<&Cell> {
        match value {
            Value::Place(place) => self.store.get(place).ok_or(Stop::Stuck { at }),
            _ => Err(Stop::Stuck { at }),
        }
    }

    fn text(&self, at: usize, value: Value) -> Judged<&[u8]> {
        match self.cell(at, value)? {
            Cell::Text(bytes) => Ok(bytes),
            Cell::Enum(_) => Err(Stop::Stuck { at }),
        }
    }

    /// STR: a run of the card's text bytes.
    fn literal(&mut self, at: usize, place: usize, length: usize) -> Judged<Value> {
        let bytes = self.card.text.get(place..place + length).ok_or(Stop::Stuck { at })?;
        self.put(at, Cell::Text(bytes.to_vec()))
    }

    fn join(&mut self, at: usize, left: Value, right: Value) -> Judged<Value> {
        let joined = [self.text(at, left)?, self.text(at, right)?].concat();
        if joined.len() > MOST_BYTES {
            return Err(Stop::failed(Ending::LongText, at));
        }
        self.put(at, Cell::Text(joined))
    }

    /// CALL: the body sees the function's own parameters and nothing else.
    fn call(
        &mut self,
        at: usize,
        function: usize,
        arguments: &[Expr],
        scope: &mut Scope<Value>,
    ) -> Judged<Value> {
        let values = self.each(arguments, scope)?;
        match self.card.functions.get(function) {
            Some(callee) if callee.parameters.len() == values.len() => {
                self.evaluate(&callee.body, &mut Scope::of(&values))
            }
            _ => Err(Stop::Stuck { at }),
        }
    }

    /// MATCH: the arm of the value's case, which sees the fields.
    fn choose(
        &mut self,
        at: usize,
        subject: &Expr,
        arms: &[Arm],
        scope: &mut Scope<Value>,
    ) -> Judged<Value> {
        let value = self.evaluate(subject, scope)?;
        let Cell::Enum(EnumValue { case, fields, .. }) = self.cell(at, value)?.clone() else {
            return Err(Stop::Stuck { at });
        };
        match arms.iter().find(|arm| arm.case == case) {
            Some(arm) if arm.names == fields.len() => {
                self.evaluate_under(arm.first, &fields, &arm.body, scope)
            }
            _ => Err(Stop::Stuck { at }),
        }
    }

    fn exit(&mut self, at: usize, text: &Expr, scope: &mut Scope<Value>) -> Judged<Value> {
        let text = self.evaluate(text, scope)?;
        self.text(at, text)?;
        Err(Stop::Exit { at, text })
    }

    /// Compares a pair of values, which is a judgement under the EQ's record.
    fn compare(&mut self, at: usize, left: Value, right: Value) -> Judged<bool> {
        self.judge(at, |run| match (left, right) {
            (Value::Unit, Value::Unit) => Ok(true),
            (Value::Number(left), Value::Number(right)) => Ok(left == right),
            (Value::Boolean(left), Value::Boolean(right)) => Ok(left == right),
            (Value::Place(_), Value::Place(_)) => run.compare_cells(at, left, right),
            _ => Err(Stop::Stuck { at }),
        })
    }

    fn compare_cells(&mut self, at: usize, left: Value, right: Value) -> Judged<bool> {
        match (self.cell(at, left)?, self.cell(at, right)?) {
            (Cell::Text(left), Cell::Text(right)) => Ok(left == right),
            (Cell::Enum(left), Cell::Enum(right)) if left.number == right.number => {
                let (left, right) = (left.clone(), right.clone());
                self.compare_enum_values(at, &left, &right)
            }
            _ => Err(Stop::Stuck { at }),
        }
    }

    /// Of one case, pair by pair until one differs.
    fn compare_enum_values(
        &mut self,
        at: usize,
        left: &EnumValue,
        right: &EnumValue,
    ) -> Judged<bool> {
        if left.case != right.case {
            return Ok(false);
        }
        if left.fields.len() != right.fields.len() {
            return Err(Stop::Stuck { at });
        }
        for (left, right) in left.fields.iter().zip(&right.fields) {
            if !self.compare(at, *left, *right)? {
                return Ok(false);
            }
        }
        Ok(true)
    }
}

fn number(at: usize, value: Value) -> Judged<i32> {
    match value {
        Value::Number(number) => Ok(number),
        _ => Err(Stop::Stuck { at }),
    }
}

fn boolean(at: usize, value: Value) -> Judged<bool> {
    match value {
        Value::Boolean(truth) => Ok(truth),
        _ => Err(Stop::Stuck { at }),
    }
}

/// The exact result, for which 64 bits are always enough, if 32 hold it.
fn calculate(at: usize, sign: Sign, left: i32, right: i32) -> Judged<Value> {
    let (left, right) = (i64::from(left), i64::from(right));
    let result = match sign {
        Sign::Add => left + right,
        Sign::Mul => left * right,
        Sign::Div | Sign::Mod if right == 0 => {
            return Err(Stop::failed(Ending::ZeroDivisor, at));
        }
        Sign::Div => left / right,
        Sign::Mod => left - right * (left / right),
    };
    let result = i32::try_from(result).map_err(|_| Stop::failed(Ending::OutOfRange, at))?;
    Ok(Value::Number(result))
}
