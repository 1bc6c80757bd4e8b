//! What is kept of the accepted lines, and their contexts.

use crate::sizes::{Cell, ROW_WIDTH};

#[derive(Clone, Copy, Debug, PartialEq, Eq)]
#[repr(u8)]
pub enum Kind {
    Variable = 0,
    Primitive = 1,
    Abbreviation = 2,
}

impl Kind {
    fn of_row(cell: u32) -> Self {
        [Kind::Variable, Kind::Primitive, Kind::Abbreviation][cell as usize]
    }
}

struct Line {
    middle: u32,
    category: u32,
    end: u32,
    /// Where the variables of its context begin in `contexts`.
    context: u32,
    /// Of a variable: where its context with itself behind begins there, once some line has that one.
    extended: u32,
}

const NOWHERE: u32 = u32::MAX;

/// The accepted lines; they count from 1.
pub struct Lines {
    lines: Vec<Line>,
    kinds: Vec<Kind>,
    lengths: Vec<Cell>,
    /// The variables of contexts, in order. A context may begin with the cells of another; where blocks branch it is copied,
    /// which in the worst book takes space in the square of its lines.
    contexts: Vec<Cell>,
}

/// Part of `contexts`: the variables that a line may use.
#[derive(Clone, Copy)]
pub struct Context {
    start: u32,
    length: Cell,
}

impl Context {
    pub fn length(&self) -> Cell {
        self.length
    }
}

impl Lines {
    pub fn new() -> Self {
        let none = Line { middle: 0, category: 0, end: 0, context: 0, extended: NOWHERE };
        Lines { lines: vec![none], kinds: vec![Kind::Primitive], lengths: vec![0], contexts: Vec::new() }
    }

    /// The lines that have these rows.
    pub fn of_rows(rows: &[u32]) -> Self {
        let mut lines = Lines::new();
        for row in rows.as_chunks::<ROW_WIDTH>().0 {
            let [_, _, indicator, _, kind, middle, category, end, _] = *row;
            let context = lines.extend(indicator);
            lines.push(Kind::of_row(kind), context, [middle, category, end].map(|place| place as usize));
        }
        lines
    }

    pub fn count(&self) -> usize {
        self.lines.len() - 1
    }

    /// Adds a line whose middle, category and end stand at these places of the term store.
    pub fn push(&mut self, kind: Kind, context: Context, [middle, category, end]: [usize; 3]) -> Cell {
        self.lines.push(Line {
            middle: middle as u32, category: category as u32, end: end as u32,
            context: context.start, extended: NOWHERE,
        });
        self.kinds.push(kind);
        self.lengths.push(context.length);
        self.count() as Cell
    }

    #[inline]
    pub fn kind(&self, line: Cell) -> Kind {
        self.kinds[line as usize]
    }

    /// How many variables the line's context has: as many arguments a constant takes, and a variable has this place
    /// in every context that it is in.
    #[inline]
    pub fn context_length(&self, line: Cell) -> usize {
        self.lengths[line as usize] as usize
    }

    #[inline]
    pub fn middle<'t>(&self, line: Cell, terms: &'t [Cell]) -> &'t [Cell] {
        let l = &self.lines[line as usize];
        &terms[l.middle as usize..l.category as usize]
    }

    #[inline]
    pub fn category<'t>(&self, line: Cell, terms: &'t [Cell]) -> &'t [Cell] {
        let l = &self.lines[line as usize];
        &terms[l.category as usize..l.end as usize]
    }

    /// The variables of the line's context.
    #[inline]
    pub fn variables(&self, line: Cell) -> &[Cell] {
        let start = self.lines[line as usize].context as usize;
        &self.contexts[start..start + self.context_length(line)]
    }

    /// The context of a line with this indicator: a variable, or 0 for none.
    pub fn extend(&mut self, indicator: Cell) -> Context {
        if indicator == 0 {
            return Context { start: 0, length: 0 };
        }
        let length = self.lengths[indicator as usize];
        let line = &mut self.lines[indicator as usize];
        if line.extended == NOWHERE {
            let start = line.context as usize;
            let end = start + length as usize;
            if end == self.contexts.len() {
                line.extended = line.context;
            } else {
                line.extended = self.contexts.len() as u32;
                self.contexts.extend_from_within(start..end);
            }
            self.contexts.push(indicator);
        }
        Context { start: line.extended, length: length + 1 }
    }

    #[inline]
    pub fn in_context(&self, context: Context, variable: Cell) -> bool {
        let place = self.context_length(variable);
        place < context.length as usize && self.contexts[context.start as usize + place] == variable
    }
}
