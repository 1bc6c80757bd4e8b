//! Copies of one theory under fresh names, each with random lemmas about its own and about the first copy's notions.

use super::{with_arguments, Writer};
use crate::random::Random;

/// Equality, numbers, implication, induction. Some lines leave out the variables of their block.
const THEORY: &str = "
    *nat@:=PN:type
    *x@:=EB:nat@
    x@*y@:=EB:nat@
    y@*is@:=PN:type
    x@*refl@:=PN:is@(x@,x@)
    y@*u@:=EB:is@
    u@*z@:=EB:nat@
    z@*v@:=EB:is@(z@,y@)
    v@*eucl@:=PN:is@(z@,x@)
    u@*sym@:=eucl@(y@,refl@(y@)):is@(y@,x@)
    z@*w@:=EB:is@(y@,z@)
    w@*trans@:=sym@(z@,x@,eucl@(sym@(y@,z@,w@))):is@(z@)
    *one@:=PN:nat@
    x@*suc@:=PN:nat@
    u@*sucis@:=PN:is@(suc@(x@),suc@(y@))
    *two@:=suc@(one@):nat@
    *three@:=suc@(two@):nat@
    *four@:=suc@(three@):nat@
    y@*plus@:=PN:nat@
    x@*plusone@:=PN:is@(plus@(x@,one@),suc@(x@))
    y@*plussuc@:=PN:is@(plus@(suc@(y@)),suc@(plus@))
    *onepone@:=plusone@(one@):is@(plus@(one@,one@),two@)
    *twopone@:=plusone@(two@):is@(plus@(two@,one@),three@)
    *threepone@:=plusone@(three@):is@(plus@(three@,one@),four@)
    *oneptwo@:=trans@(plus@(one@,two@),suc@(plus@(one@,one@)),plussuc@(one@,one@),suc@(two@),sucis@(plus@(one@,one@),two@,onepone@)):is@(plus@(one@,two@),three@)
    *twoptwo@:=trans@(plus@(two@,two@),suc@(plus@(two@,one@)),plussuc@(two@,one@),suc@(three@),sucis@(plus@(two@,one@),three@,twopone@)):is@(plus@(two@,two@),four@)
    *prop@:=PN:type
    *p@:=EB:prop@
    p@*proof@:=PN:type
    p@*q@:=EB:prop@
    q@*imp@:=PN:prop@
    q@*given@:=EB:[a,proof@(p@)]proof@(q@)
    given@*impi@:=PN:proof@(imp@)
    q@*i@:=EB:proof@(imp@)
    i@*a@:=EB:proof@
    a@*mp@:=PN:proof@(q@)
    p@*impself@:=impi@(p@,[a,proof@]a):proof@(imp@(p@))
    i@*r@:=EB:prop@
    r@*j@:=EB:proof@(imp@(q@,r@))
    j@*syll@:=impi@(r@,[a,proof@]mp@(q@,r@,j@,mp@(a))):proof@(imp@(r@))
    q@*const@:=impi@(p@,imp@(q@,p@),[a,proof@(p@)]impi@(q@,p@,[b,proof@(q@)]a)):proof@(imp@(p@,imp@(q@,p@)))
    *con@:=PN:prop@
    p@*not@:=imp@(p@,con@):prop@
    p@*notnot@:=impi@(p@,not@(not@(p@)),[a,proof@(p@)]impi@(not@(p@),con@,[b,proof@(not@(p@))]mp@(p@,con@,b,a))):proof@(imp@(p@,not@(not@(p@))))
    i@*contra@:=impi@(not@(q@),not@(p@),[b,proof@(not@(q@))]syll@(p@,q@,i@,con@,b)):proof@(imp@(not@(q@),not@(p@)))
    *P@:=EB:[a,nat@]prop@
    P@*all@:=PN:prop@
    P@*each@:=EB:[a,nat@]proof@(<a>P@)
    each@*alli@:=PN:proof@(all@(P@))
    P@*every@:=EB:proof@(all@)
    every@*t@:=EB:nat@
    t@*alle@:=PN:proof@(<t@>P@)
    P@*base@:=EB:proof@(<one@>P@)
    base@*m@:=EB:nat@
    m@*hered@:=[b,proof@(<m@>P@)]proof@(<suc@(m@)>P@):type
    base@*step@:=EB:[a,nat@]hered@(a)
    step@*ind@:=PN:proof@(all@(P@))
    y@*eq@:=PN:prop@
    x@*eqrefl@:=PN:proof@(eq@(x@,x@))
    y@*e@:=EB:proof@(eq@)
    e@*eqsuc@:=PN:proof@(eq@(suc@(x@),suc@(y@)))
    e@*K@:=EB:[a,nat@]prop@
    K@*k@:=EB:proof@(<x@>K@)
    k@*eqsub@:=PN:proof@(<y@>K@)
    e@*eqsym@:=eqsub@([a,nat@]eq@(a,x@),eqrefl@):proof@(eq@(y@,x@))
    *allrefl@:=alli@([a,nat@]eq@(a,a),[a,nat@]eqrefl@(a)):proof@(all@([a,nat@]eq@(a,a)))
    *indrefl@:=ind@([a,nat@]eq@(a,a),eqrefl@(one@),[a,nat@][b,proof@(eq@(a,a))]eqsuc@(a,a,b)):proof@(all@([a,nat@]eq@(a,a)))
    x@*usesrefl@:=alle@([a,nat@]eq@(a,a),indrefl@,x@):proof@(eq@(x@,x@))
    *plus0@:=[a,nat@]plus@(a,two@):[a,nat@]nat@
    *func@:=[a,nat@]nat@:type
    *twice@:=[f,func@][a,nat@]<<a>f>f:[f,func@]func@
    *plusfour@:=<plus0@>twice@:func@
    *p1@:=eqrefl@(<one@>plusfour@):proof@(eq@(<one@>plusfour@,plus@(plus@(one@,two@),two@)))
";

/// The block of the lemmas about equality: u proves `is` of x and y, w of y and z.
const BLOCK: [&str; 5] = ["x", "y", "u", "z", "w"];
const POINTS: [&str; 3] = ["x", "y", "z"];

/// Each lemma of this number leaves out the variables of its block where it may.
const LEAVES_OUT: usize = 3;

/// A lemma in the context x, y, u, z, w: which points it proves equal.
struct Lemma {
    name: String,
    left: usize,
    right: usize,
}

pub fn part(writer: &mut Writer, random: &mut Random, part: usize, first: usize) {
    let own = format!("_{part}");
    writer.lines(THEORY, &own);
    lemmas(writer, random, &own, &format!("l{own}"), 16);
    lemmas(writer, random, &format!("_{first}"), &format!("far{own}"), 6);
}

/// Random lemmas about the equality of the copy whose names end in `of`.
fn lemmas(writer: &mut Writer, random: &mut Random, of: &str, prefix: &str, count: usize) {
    let mut known: Vec<Lemma> = Vec::new();
    for number in 0..count {
        let (left, right) = (random.below(3), random.below(3));
        let points = POINTS.map(|p| format!("{p}{of}"));
        let depth = random.between(1, 3);
        let prover = Prover { of, known: &known, leaves_out: number % LEAVES_OUT == LEAVES_OUT - 1 };
        let points = [points[0].as_str(), &points[1], &points[2]];
        let proof = prover.proof(random, points, left, right, depth);
        let name = format!("{prefix}_{number}");
        let equal = prover.applied("is", &[points[left], points[right]]);
        writer.line(&format!("w{of}*{name}:={proof}:{equal}"));
        known.push(Lemma { name, left, right });
    }
}

struct Prover<'p> {
    of: &'p str,
    known: &'p [Lemma],
    leaves_out: bool,
}

impl Prover<'_> {
    /// A notion of the copy with these arguments; its context begins with the block's variables.
    fn applied(&self, notion: &str, arguments: &[&str]) -> String {
        self.named(&format!("{notion}{}", self.of), arguments)
    }

    fn named(&self, name: &str, arguments: &[&str]) -> String {
        let same = arguments.iter().zip(BLOCK).take_while(|&(a, b)| a.strip_suffix(self.of) == Some(b)).count();
        with_arguments(name, &arguments[if self.leaves_out { same } else { 0 }..])
    }

    /// A proof that two of the points are equal.
    fn proof(&self, random: &mut Random, points: [&str; 3], left: usize, right: usize, depth: usize) -> String {
        let (a, b) = (points[left], points[right]);
        if depth == 0 {
            return self.shortest(points, left, right);
        }
        match random.below(4) {
            0 => {
                let back = self.proof(random, points, right, left, depth - 1);
                self.applied("sym", &[b, a, &back])
            }
            1 if !self.known.is_empty() => {
                let lemma = random.choose(self.known);
                self.used(random, points, left, right, lemma, depth)
            }
            _ => {
                let via = random.below(3);
                let to = self.proof(random, points, left, via, depth - 1);
                let from = self.proof(random, points, via, right, depth - 1);
                self.applied("trans", &[a, points[via], &to, b, &from])
            }
        }
    }

    /// An application of an earlier lemma.
    fn used(&self, random: &mut Random, points: [&str; 3], left: usize, right: usize, lemma: &Lemma, depth: usize) -> String {
        if lemma.left == lemma.right && left != right {
            return self.shortest(points, left, right);
        }
        let mut at = [random.below(3), random.below(3), random.below(3)];
        at[lemma.left] = left;
        at[lemma.right] = right;
        let u = self.proof(random, points, at[0], at[1], depth - 1);
        let w = self.proof(random, points, at[1], at[2], depth - 1);
        self.named(&lemma.name, &[points[at[0]], points[at[1]], &u, points[at[2]], &w])
    }

    fn shortest(&self, points: [&str; 3], left: usize, right: usize) -> String {
        let [x, y, z] = points;
        let (u, w) = (format!("u{}", self.of), format!("w{}", self.of));
        match (left, right) {
            (0, 1) => u,
            (1, 2) => w,
            (1, 0) => self.applied("sym", &[x, y, &u]),
            (2, 1) => self.applied("sym", &[y, z, &w]),
            (0, 2) => self.applied("trans", &[x, y, &u, z, &w]),
            (2, 0) => self.applied("sym", &[x, z, &self.applied("trans", &[x, y, &u, z, &w])]),
            _ => self.applied("refl", &[points[left]]),
        }
    }
}
