//! Names and what they stand for.

/// A list of bindings, the newest last.
#[derive(Clone, Debug)]
pub struct Scope<T> {
    bindings: Vec<(u16, T)>,
}

impl<T: Copy> Scope<T> {
    /// What a function's body sees: parameter i has name i.
    pub fn of(parameters: &[T]) -> Self {
        let mut scope = Scope { bindings: Vec::new() };
        scope.bind(0, parameters);
        scope
    }

    /// Binds consecutive names, from the first on.
    pub fn bind(&mut self, first: u16, meanings: &[T]) {
        self.bindings.extend((first..=u16::MAX).zip(meanings.iter().copied()));
    }

    /// What a name means now, by its newest binding.
    pub fn newest(&self, name: u16) -> Option<T> {
        let newest = self.bindings.iter().rev().find(|(bound, _)| *bound == name);
        newest.map(|(_, meaning)| *meaning)
    }

    /// How many bindings there are.
    pub fn depth(&self) -> usize {
        self.bindings.len()
    }

    /// Ends all bindings newer than the first so many.
    pub fn return_to(&mut self, depth: usize) {
        self.bindings.truncate(depth);
    }
}
