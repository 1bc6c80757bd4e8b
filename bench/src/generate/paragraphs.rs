//! Closed paragraphs beside each other, with the same identifiers in each; they use each other's lines.

use super::{NUMBERS, Writer};
use crate::random::Random;

/// The first paragraph.
const FIRST: &str = "
    *a:=PN:nat
    *x:=EB:nat
    x*f:=suc(x):nat
    x*e:=refl(f):is(f,suc(x))
    *b:=f(a):nat
";

pub fn part(writer: &mut Writer, random: &mut Random, part: usize) {
    let own = format!("p{part}");
    if part == 0 {
        writer.lines(NUMBERS, "");
        writer.open(&own);
        writer.lines(FIRST, "");
        writer.close();
        return;
    }
    let mut earlier = || format!("p{}", random.below(part));
    let [p, q, r, s] = [earlier(), earlier(), earlier(), earlier()];
    let value = match random.below(3) {
        0 => format!("{p}.f({q}.f(x))"),
        1 => format!("plus({p}.f(x),{q}.a)"),
        _ => format!("{p}.f(plus({q}.b,x))"),
    };
    writer.open(&own);
    writer.line(&format!("*a:={r}.f({s}.b):nat"));
    writer.line("*x:=EB:nat");
    writer.line(&format!("x*f:={value}:nat"));
    writer.line(&format!("x*e:=refl(f):is(f,{value})"));
    writer.line(&format!("*b:=f({r}.a):nat"));
    writer.line(&format!("*c:={s}.e(b):is({s}.f(b),{s}.f(b))"));
    writer.close();
    // In the block of a variable of the closed paragraph, which its own notion may leave out.
    writer.line(&format!("{own}.x*g{part}:=plus({own}.f,{r}.f({own}.x)):nat"));
}
