//! Books whose comparisons need many head steps.

use super::Writer;
use crate::random::Random;

const NOTIONS: &str = "
    *nat@:=PN:type
    *one@:=PN:nat@
    *n@:=EB:nat@
    n@*suc@:=PN:nat@
    n@*m@:=EB:nat@
    m@*plus@:=PN:nat@
    n@*is@:=PN:type
    n@*triv@:=PN:is@(n@)
    *fun@:=[x,nat@]nat@:type
    *sucf@:=[x,nat@]suc@(x):fun@
    *dbl0@:=[x,nat@]plus@(x,x):fun@
    *ch1@:=[f,fun@][x,nat@]<x>f:[f,fun@]fun@
    *ch2@:=[f,fun@][x,nat@]<<x>f>f:[f,fun@]fun@
    *comp@:=[f,fun@][g,fun@][x,nat@]<<x>f>g:[f,fun@][g,fun@]fun@
";

pub fn part(writer: &mut Writer, random: &mut Random, part: usize) {
    let own = format!("_s{part}");
    writer.lines(NOTIONS, &own);
    chain(writer, random, &own);
    doubling(writer, random, &own);
    church(writer, random, &own);
    function_types(writer, random, &own);
    redexes(writer, random, &own);
}

/// A long chain of abbreviations, and comparisons of its ends.
fn chain(writer: &mut Writer, random: &mut Random, own: &str) {
    let length = random.between(12, 24);
    writer.line(&format!("*c0{own}:=suc{own}(one{own}):nat{own}"));
    for i in 1..=length {
        writer.line(&format!("*c{i}{own}:=c{}{own}:nat{own}", i - 1));
    }
    for i in 0..6 {
        let (from, to) = (random.below(length), random.between(0, length));
        writer.line(&format!("*ct{i}{own}:=triv{own}(c{from}{own}):is{own}(c{to}{own})"));
        let sum = format!("plus{own}(c{from}{own},c{to}{own})");
        let other = format!("plus{own}(c{to}{own},c{from}{own})");
        writer.line(&format!("*cs{i}{own}:=triv{own}({sum}):is{own}({other})"));
    }
}

/// Numerals by doubling, once with arguments and once without.
fn doubling(writer: &mut Writer, random: &mut Random, own: &str) {
    const POWERS: usize = 7;
    writer.line(&format!("n{own}*d1{own}:=plus{own}(n{own},n{own}):nat{own}"));
    writer.line(&format!("*e1{own}:=plus{own}(one{own},one{own}):nat{own}"));
    for i in 2..=POWERS {
        let last = i - 1;
        writer.line(&format!("n{own}*d{i}{own}:=d1{own}(d{last}{own}(n{own})):nat{own}"));
        writer.line(&format!("*e{i}{own}:=plus{own}(e{last}{own},e{last}{own}):nat{own}"));
    }
    for i in 0..4 {
        let power = random.between(2, POWERS);
        writer.line(&format!("*dt{i}{own}:=triv{own}(d{power}{own}(one{own})):is{own}(e{power}{own})"));
        let (a, b) = (random.between(1, power - 1), power);
        let split = format!("d{a}{own}(d{}{own}(one{own}))", b - a);
        writer.line(&format!("*ds{i}{own}:=triv{own}({split}):is{own}(d{b}{own}(one{own}))"));
    }
}

/// Numerals as functions of functions: redexes inside redexes.
fn church(writer: &mut Writer, random: &mut Random, own: &str) {
    for i in 3..=8 {
        let body = if i % 2 == 0 {
            format!("[f,fun{own}]<<f>ch{}{own}>ch2{own}", i / 2)
        } else {
            format!("[f,fun{own}][x,nat{own}]<<x><f>ch{}{own}>f", i - 1)
        };
        writer.line(&format!("*ch{i}{own}:={body}:[f,fun{own}]fun{own}"));
    }
    for i in 0..6 {
        let power = random.between(2, 8);
        let numeral = (0..power).fold(format!("one{own}"), |n, _| format!("suc{own}({n})"));
        let applied = format!("<one{own}><sucf{own}>ch{power}{own}");
        writer.line(&format!("*ht{i}{own}:=triv{own}({applied}):is{own}({numeral})"));
        let (a, b) = (random.between(1, 4), random.between(1, 2));
        let left = format!("<one{own}><<sucf{own}>ch{a}{own}>ch{b}{own}");
        let right = format!("<one{own}><sucf{own}>ch{}{own}", a * b);
        writer.line(&format!("*hs{i}{own}:=triv{own}({left}):is{own}({right})"));
    }
}

/// Function types behind abbreviations: to apply a function of such a type, it is unfolded first.
fn function_types(writer: &mut Writer, random: &mut Random, own: &str) {
    let length = random.between(6, 12);
    writer.line(&format!("*t0{own}:=[x,nat{own}]fun{own}:type"));
    for i in 1..=length {
        writer.line(&format!("*t{i}{own}:=t{}{own}:type", i - 1));
    }
    for i in 0..4 {
        let level = random.between(1, length);
        writer.line(&format!("*g{i}{own}:=PN:t{level}{own}"));
        writer.line(&format!("*gv{i}{own}:=<c3{own}><one{own}>g{i}{own}:nat{own}"));
        writer.line(&format!("*ga{i}{own}:=[x,nat{own}]<x><x>g{i}{own}:fun{own}"));
        writer.line(&format!("*gt{i}{own}:=triv{own}(<one{own}>ga{i}{own}):is{own}(<one{own}><one{own}>g{i}{own})"));
    }
}

/// Explicit redexes, some with large arguments.
fn redexes(writer: &mut Writer, random: &mut Random, own: &str) {
    for i in 0..6 {
        let depth = random.between(2, 6);
        let mut expression = format!("c{}{own}", random.between(0, 8));
        let mut normal = expression.clone();
        for _ in 0..depth {
            if random.once_in(2) {
                expression = format!("<{expression}>[x,nat{own}]plus{own}(x,suc{own}(x))");
                normal = format!("plus{own}({normal},suc{own}({normal}))");
            } else {
                expression = format!("<{expression}>sucf{own}");
                normal = format!("suc{own}({normal})");
            }
        }
        writer.line(&format!("*rt{i}{own}:=triv{own}({expression}):is{own}({normal})"));
        let composed = format!("<one{own}><dbl0{own}><sucf{own}>comp{own}");
        writer.line(&format!("*rc{i}{own}:=triv{own}({composed}):is{own}(plus{own}(suc{own}(one{own}),suc{own}(one{own})))"));
    }
}
