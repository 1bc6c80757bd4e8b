//! Pairs of expressions of growing length, on which the two comparisons need very different numbers of steps. Each is a book; the
//! middles of its last two lines are the sides.

use super::{Writer, NUMBERS};

#[derive(Clone, Copy, Debug, PartialEq, Eq)]
pub enum PairKind {
    /// `c9(two)` and `c9(suc(one))`; each abbreviation is made of two uses of the one before, inside each other.
    Inside,
    /// As inside, with the two uses beside each other; on the right the last of them is unfolded each time.
    Beside,
    /// As beside, without unfolding, of `one` and of `two`.
    Leaves,
    /// `f(f(two,one),one)` and `f(f(suc(one),two),two)`; the abbreviation f ignores its last argument.
    Ignored,
    /// `g(g(one))` and `g(g(two))`; g is an abbreviation.
    Differing,
    /// `<<one>h>h` and `<<two>h>h`; h abbreviates a function.
    Applied,
}

impl PairKind {
    pub const ALL: [PairKind; 6] = [
        PairKind::Inside, PairKind::Beside, PairKind::Leaves, PairKind::Ignored, PairKind::Differing, PairKind::Applied,
    ];

    pub fn title(self) -> &'static str {
        match self {
            PairKind::Inside => "inside",
            PairKind::Beside => "beside",
            PairKind::Leaves => "leaves",
            PairKind::Ignored => "ignored",
            PairKind::Differing => "differing",
            PairKind::Applied => "applied",
        }
    }

    /// The book of a pair of this length.
    pub fn book(self, length: usize) -> Vec<u8> {
        let mut writer = Writer { most: usize::MAX, ..Writer::default() };
        writer.lines(NUMBERS, "");
        writer.line("*two:=suc(one):nat");
        self.abbreviations(&mut writer, length);
        for (name, side) in ["left", "right"].iter().zip(self.sides(length)) {
            writer.line(&format!("*{name}:={side}:nat"));
        }
        writer.text
    }

    fn abbreviations(self, writer: &mut Writer, length: usize) {
        match self {
            PairKind::Inside => chain(writer, length, |c| format!("{c}({c}(n))")),
            PairKind::Beside | PairKind::Leaves => chain(writer, length, |c| format!("plus({c}(n),{c}(n))")),
            PairKind::Ignored => writer.line("m*f:=suc(n):nat"),
            PairKind::Differing => writer.line("n*g:=suc(n):nat"),
            PairKind::Applied => writer.line("*h:=[x,nat]suc(x):[x,nat]nat"),
        }
    }

    fn sides(self, length: usize) -> [String; 2] {
        match self {
            PairKind::Inside => ["two", "suc(one)"].map(|inner| format!("c{length}({inner})")),
            PairKind::Beside => {
                let unfolded = |inner: String, i: usize| format!("plus(c{i}(suc(one)),{inner})");
                [format!("c{length}(two)"), (0..length).fold("suc(one)".to_string(), unfolded)]
            }
            PairKind::Leaves => ["one", "two"].map(|inner| format!("c{length}({inner})")),
            PairKind::Ignored => [("two", "one"), ("suc(one)", "two")]
                .map(|(inner, last)| nested(length, inner, |inside| format!("f({inside},{last})"))),
            PairKind::Differing => ["one", "two"].map(|inner| nested(length, inner, |inside| format!("g({inside})"))),
            PairKind::Applied => ["one", "two"].map(|inner| nested(length, inner, |inside| format!("<{inside}>h"))),
        }
    }
}

/// Abbreviations c0, which stands for its argument, to that of this number, each made from the one before.
fn chain(writer: &mut Writer, length: usize, next: impl Fn(&str) -> String) {
    writer.line("n*c0:=n:nat");
    for i in 1..=length {
        writer.line(&format!("n*c{i}:={}:nat", next(&format!("c{}", i - 1))));
    }
}

fn nested(length: usize, inner: &str, around: impl Fn(String) -> String) -> String {
    (0..length).fold(inner.to_string(), |inside, _| around(inside))
}
