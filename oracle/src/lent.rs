//! What the comment check asks of its surroundings, in the shapes that the cut text names: a database that is two lent
//! tables, a bibliography that is a third, and an HTML parser that keeps its place and nothing else.
use crate::diag::Diagnostic;
use crate::tables::Names;

/// The lent symbols and labels.
pub struct Database<'a> {
    pub symbols: &'a Names,
    pub labels: &'a Names,
}

impl Database<'_> {
    pub fn name_result(&self) -> &Self {
        self
    }

    pub fn lookup_symbol(&self, name: &[u8]) -> Option<usize> {
        self.symbols.entry(name)
    }

    pub fn lookup_label(&self, name: &[u8]) -> Option<usize> {
        self.labels.entry(name)
    }
}

/// The lent bibliography.
pub struct Bibliography<'a>(pub &'a Names);

impl Bibliography<'_> {
    pub fn contains(&self, tag: &[u8]) -> bool {
        self.0.entry(tag).is_some()
    }
}

/// HTML validation stays behind (document 01): the place where HTML began is all that is left of it.
pub struct HtmlParser {
    pub start: usize,
}

impl HtmlParser {
    pub fn new(start: usize) -> Self {
        Self { start }
    }

    pub fn feed(&mut self, _text: &[u8]) {}

    pub fn validate(self, _end: usize, _diag: &mut impl FnMut(Diagnostic)) {}
}
