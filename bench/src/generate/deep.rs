//! Nesting up to 32, and expressions near the limit of 2,050 cells.

use super::Writer;
use crate::random::Random;

const NOTIONS: &str = "
    *n@:=PN:type
    *o@:=PN:n@
    *x@:=EB:n@
    x@*s@:=PN:n@
    x@*y@:=EB:n@
    y@*p@:=PN:n@
    x@*i@:=PN:type
    x@*t@:=PN:i@(x@)
    *two@:=s@(o@):n@
    *f@:=PN:[x,n@]n@
    y@*e@:=PN:type
    x@*r@:=PN:e@(x@,x@)
";

pub fn part(writer: &mut Writer, random: &mut Random, part: usize) {
    let own = format!("{part}");
    nested(writer, random, &own, 4);
    large(writer, random, &own);
}

/// A part without large expressions.
pub fn nested_part(writer: &mut Writer, random: &mut Random, part: usize) {
    nested(writer, random, &format!("{part}"), 3);
}

fn nested(writer: &mut Writer, random: &mut Random, own: &str, times: usize) {
    writer.lines(NOTIONS, own);
    for i in 0..times {
        arguments(writer, random, own, i);
        applications(writer, random, own, i);
        abstractions(writer, random, own, i);
        domains(writer, random, own, i);
        dependent(writer, random, own, i);
    }
}

/// Arguments in arguments; a comparison that goes down to depth 32.
fn arguments(writer: &mut Writer, random: &mut Random, own: &str, i: usize) {
    let depth = random.between(24, 29);
    let mut left = format!("two{own}");
    let mut right = format!("s{own}(o{own})");
    for _ in 0..depth {
        let around = random.below(3);
        [left, right] = [left, right].map(|e| match around {
            0 => format!("s{own}({e})"),
            1 => format!("p{own}({e},o{own})"),
            _ => format!("p{own}(two{own},{e})"),
        });
    }
    writer.line(&format!("*aa{i}_{own}:={left}:n{own}"));
    writer.line(&format!("*ab{i}_{own}:=t{own}({left}):i{own}({right})"));
}

/// Applications in applications, on the side of the function and on that of the argument.
fn applications(writer: &mut Writer, random: &mut Random, own: &str, i: usize) {
    let count = random.between(20, 30);
    let category = format!("{}n{own}", format!("[x,n{own}]").repeat(count));
    writer.line(&format!("*fa{i}_{own}:=PN:{category}"));
    let arguments: String = (0..count).map(|_| format!("<{}{own}>", random.choose(&["o", "two"]))).collect();
    writer.line(&format!("*fb{i}_{own}:={arguments}fa{i}_{own}:n{own}"));
    let inside = (0..count).fold(format!("o{own}"), |e, _| format!("<{e}>f{own}"));
    writer.line(&format!("*fc{i}_{own}:={inside}:n{own}"));
}

/// Abstractions in abstractions, whose bodies use the bound variables from all depths.
fn abstractions(writer: &mut Writer, random: &mut Random, own: &str, i: usize) {
    let count = random.between(16, 26);
    let binders: String = (0..count).map(|b| format!("[z{b},n{own}]")).collect();
    let mut body = format!("z{}", random.below(count));
    for _ in 0..30 - count {
        let bound = random.below(count);
        body = match random.below(3) {
            0 => format!("p{own}(z{bound},{body})"),
            1 => format!("<{body}>f{own}"),
            _ => format!("p{own}({body},z{bound})"),
        };
    }
    writer.line(&format!("*ba{i}_{own}:={binders}{body}:{binders}n{own}"));
}

/// Abstractions in domains.
fn domains(writer: &mut Writer, random: &mut Random, own: &str, i: usize) {
    let count = random.between(12, 28);
    let domain = (0..count).fold(format!("n{own}"), |d, _| format!("[g,{d}]n{own}"));
    writer.line(&format!("*da{i}_{own}:={domain}:type"));
    writer.line(&format!("*db{i}_{own}:=[h,da{i}_{own}]h:[h,{domain}]{domain}"));
}

/// Bindings whose domains use the bound variables before them.
fn dependent(writer: &mut Writer, random: &mut Random, own: &str, i: usize) {
    let count = random.between(4, 12);
    let mut binders = String::new();
    for b in 0..count {
        binders.push_str(&format!("[z{b},n{own}]"));
        binders.push_str(&format!("[q{b},e{own}(z{},z{})]", random.below(b + 1), random.below(b + 1)));
    }
    let bound = random.below(count);
    writer.line(&format!("*ea{i}_{own}:={binders}r{own}(z{bound}):{binders}e{own}(z{bound},z{bound})"));
    writer.line(&format!("*eb{i}_{own}:={binders}q{bound}:{binders}{}", binder_type(&binders, bound)));
}

/// The domain that was written for the proof of this number.
fn binder_type(binders: &str, bound: usize) -> &str {
    let start = format!("[q{bound},");
    let from = binders.find(&start).unwrap() + start.len();
    &binders[from..from + binders[from..].find(']').unwrap()]
}

/// Expressions of up to 2,049 cells, compared with others that differ in one place.
fn large(writer: &mut Writer, random: &mut Random, own: &str) {
    for (i, height) in [(0, 10), (1, 9), (2, random.between(5, 8))] {
        let leaves = 1 << height;
        let (mut left, mut right) = (String::new(), String::new());
        tree(&mut left, &mut right, height, own, random.below(leaves));
        writer.line(&format!("*la{i}_{own}:={left}:n{own}"));
        writer.line(&format!("*lb{i}_{own}:=t{own}({left}):i{own}({right})"));
    }
}

/// A tree of sums; at one leaf the right one has `s(o)` where the left one has its abbreviation.
fn tree(left: &mut String, right: &mut String, height: usize, own: &str, special: usize) {
    if height == 0 {
        left.push_str(if special == 0 { "two" } else { "o" });
        left.push_str(own);
        right.push_str(&if special == 0 { format!("s{own}(o{own})") } else { format!("o{own}") });
        return;
    }
    let half = 1 << (height - 1);
    for side in [&mut *left, &mut *right] {
        side.push_str(&format!("p{own}("));
    }
    tree(left, right, height - 1, own, special);
    left.push(',');
    right.push(',');
    tree(left, right, height - 1, own, special.wrapping_sub(half));
    left.push(')');
    right.push(')');
}
