//! Paragraphs inside each other, up to 32 of them open; names from many paragraphs outward, and of closed ones.

use super::{NUMBERS, Writer};
use crate::random::Random;
use crate::sizes::MOST_OPEN;

const NOTIONS: &str = "
    *a0:=one:nat
    *b:=suc(one):nat
    *x:=EB:nat
    x*f:=plus(x,b):nat
";

/// In each section of such a depth the block gets one more variable.
const BLOCKS: usize = 3;

pub fn part(writer: &mut Writer, random: &mut Random, part: usize) {
    if part == 0 {
        writer.lines(NUMBERS, "");
        writer.lines(NOTIONS, "");
    }
    let deepest = if part % 2 == 0 { MOST_OPEN } else { random.between(MOST_OPEN / 4, MOST_OPEN) };
    let mut chapter = Chapter { writer, random, part, deepest };
    chapter.section(&format!("chapter{part}"), 1, deepest);
}

/// A chapter, in which sections have the same names and identifiers as in every other.
struct Chapter<'c> {
    writer: &'c mut Writer,
    random: &'c mut Random,
    part: usize,
    deepest: usize,
}

impl Chapter<'_> {
    /// A section at this depth, with sections down to another in it.
    fn section(&mut self, name: &str, depth: usize, down_to: usize) {
        self.writer.open(name);
        self.beginning(depth);
        if depth < down_to {
            self.section("s0", depth + 1, down_to);
            self.behind("s0", depth);
            if self.random.once_in(4) {
                let down_to = self.random.between(depth + 1, self.deepest.min(depth + 3));
                self.section("s1", depth + 1, down_to);
                self.behind("s1", depth);
            }
        }
        self.writer.close();
    }

    /// The lines ahead of the inner sections. `b`, `x` and `f` hide those outside, which they are made from.
    fn beginning(&mut self, depth: usize) {
        let (outer, other) = (self.outward(depth), self.outward(depth));
        self.writer.line(&format!("*a{depth}:=plus({outer},suc({other})):nat"));
        self.writer.line(&format!("*b:=plus(b,a{depth}):nat"));
        if depth % BLOCKS == 0 {
            self.writer.line("x*x:=EB:nat");
        }
        let outer = self.outward(depth);
        self.writer.line(&format!("x*f:=plus(x,{outer}):nat"));
        self.writer.line(&format!("x*e:=refl(f):is(f,plus(x,{outer}))"));
    }

    /// The lines behind an inner section, about what it has.
    fn behind(&mut self, inner: &str, depth: usize) {
        let (deeper, outer) = (depth + 1, self.outward(depth));
        self.writer.line(&format!("*c_{inner}:=plus({inner}.a{deeper},{outer}):nat"));
        if deeper % BLOCKS == 0 {
            self.writer.line(&format!("{inner}.x*g_{inner}:=plus({inner}.f,f({inner}.x)):nat"));
            self.writer.line(&format!("x*h_{inner}:=plus({inner}.f({outer}),f):nat"));
        } else {
            self.writer.line(&format!("x*g_{inner}:=plus({inner}.f,f):nat"));
            self.writer.line(&format!("*h_{inner}:=refl({inner}.b):is({inner}.b,plus(b,{inner}.a{deeper}))"));
        }
    }

    /// A number that stands some paragraphs outward, or in an earlier chapter.
    fn outward(&mut self, depth: usize) -> String {
        if self.part > 0 && self.random.once_in(4) {
            let chapter = self.random.below(self.part);
            return format!("chapter{chapter}.{}", self.random.choose(&["a1", "b"]));
        }
        format!("a{}", self.random.below(depth))
    }
}
