//! Trees of totals: terms are added, totals joined and carried over, in any shape and to many depths, and one column has all the
//! terms.
use super::terms::{self, Window, PLUS_ZERO};
use super::{damaged, shuffled, Column};
use crate::random::Random;
use crate::totals::call::{Call, Turn};
use crate::totals::model::{Term, LENGTH, MOST};

/// What a total is made of, in its order. Nothing at all is an empty total.
pub struct Tree(pub Vec<Part>);

pub enum Part {
    Term(Call),
    /// A total that is joined; it may come from an old build, and be carried over before.
    Total {
        tree: Tree,
        carried: bool,
    },
}

/// How terms become a tree.
#[derive(Clone, Copy)]
pub enum Form {
    /// Each term has a total of its own, and all of these are joined to one.
    Chain,
    /// Each total has one term, and is joined to that of the term before.
    Nested,
    /// Halves of halves.
    Balanced,
    /// Any, with empty totals anywhere.
    Any { depth: u32 },
}

impl Form {
    pub fn drawn(r: &mut Random) -> Form {
        match r.within(0, 7) {
            0 => Form::Chain,
            1 => Form::Nested,
            2 => Form::Balanced,
            _ => Form::Any { depth: r.within(1, 8) as u32 },
        }
    }

    fn tree(self, terms: &[Call], r: &mut Random) -> Tree {
        match (self, terms) {
            (Form::Any { depth }, _) => any(depth, terms, r),
            (Form::Chain, _) => {
                Tree(terms.iter().map(|&term| total(Tree(vec![Part::Term(term)]), r)).collect())
            }
            (Form::Nested, [first, rest @ ..]) => {
                let rest = self.tree(rest, r);
                Tree(vec![Part::Term(*first), total(rest, r)])
            }
            (Form::Balanced, [_, _, ..]) => {
                let (low, high) = terms.split_at(terms.len() / 2);
                let halves = [low, high].map(|half| self.tree(half, r));
                Tree(halves.map(|half| total(half, r)).into())
            }
            (Form::Nested | Form::Balanced, _) => Tree(terms.iter().map(|&term| Part::Term(term)).collect()),
        }
    }
}

/// One in four is carried over.
fn total(tree: Tree, r: &mut Random) -> Part {
    Part::Total { tree, carried: r.once_in(4) }
}

/// The terms in runs of any length, none too, each of them added here or in a total that is joined.
fn any(depth: u32, terms: &[Call], r: &mut Random) -> Tree {
    let (mut parts, mut rest) = (Vec::new(), terms);
    while !rest.is_empty() || r.once_in(4) {
        let (run, after) = rest.split_at(r.within(0, rest.len() as i32) as usize);
        if depth > 0 && r.once_in(2) {
            let tree = any(depth - 1, run, r);
            parts.push(total(tree, r));
        } else {
            parts.extend(run.iter().map(|&term| Part::Term(term)));
        }
        rest = after;
    }
    Tree(parts)
}

fn reversed(tree: &Tree) -> Tree {
    let part = |part: &Part| match part {
        Part::Term(call) => Part::Term(*call),
        Part::Total { tree, carried } => Part::Total { tree: reversed(tree), carried: *carried },
    };
    Tree(tree.0.iter().rev().map(part).collect())
}

/// The terms that one column has in the tree's place: all of it, but where all terms of what is carried over are -0, one of them
/// is +0.
fn terms(tree: &Tree) -> Vec<Call> {
    let part = |part: &Part| match part {
        Part::Term(call) => vec![*call],
        Part::Total { tree, carried } => {
            let mut terms = terms(tree);
            let all_minus_zero = terms.iter().all(|&term| Term::of(term).minus_zero);
            if let Some(last) = terms.last_mut().filter(|_| *carried && all_minus_zero) {
                *last = PLUS_ZERO;
            }
            terms
        }
    };
    tree.0.iter().flat_map(part).collect()
}

/// The calls that make trees, each total in a place that no other needs at that time.
#[derive(Default)]
struct Plan {
    turns: Vec<Turn>,
    free: Vec<usize>,
    places: usize,
    /// Where old totals stand until they are carried over.
    old: Option<usize>,
}

impl Plan {
    /// A place that may have held other words.
    fn place(&mut self) -> usize {
        self.free.pop().unwrap_or_else(|| self.new_place())
    }

    fn new_place(&mut self) -> usize {
        self.places += 1;
        self.places - 1
    }

    /// The place of the total that the tree makes. Of two that are joined, either may be the first and go on.
    fn make(&mut self, tree: &Tree, r: &mut Random) -> usize {
        let mut place = self.place();
        self.turns.push(Turn::On(place, Call::Clear));
        for part in &tree.0 {
            match part {
                Part::Term(call) => self.turns.push(Turn::On(place, *call)),
                Part::Total { tree, carried } => {
                    let made = self.make(tree, r);
                    let other = if *carried { self.carry_over(made, r) } else { made };
                    let (first, second) = if r.once_in(2) { (place, other) } else { (other, place) };
                    self.turns.push(Turn::Join(first, second));
                    self.free.push(second);
                    place = first;
                }
            }
            if r.once_in(8) {
                self.turns.push(Turn::On(place, Call::Read));
            }
        }
        place
    }

    /// As if an old build had made the total. It goes to its own place again, or to another.
    fn carry_over(&mut self, made: usize, r: &mut Random) -> usize {
        let old = self.old.unwrap_or_else(|| self.new_place());
        self.old = Some(old);
        let new = if r.once_in(2) { made } else { self.place() };
        self.turns.extend([Turn::AsOld(made, old), Turn::CarryOver(old, new)]);
        if new != made {
            self.free.push(made);
        }
        new
    }
}

/// The tree, the tree in the reversed order, and all its terms in any order on one total: they end alike.
pub fn column(tree: &Tree, r: &mut Random) -> Column {
    let mut plan = Plan::default();
    let roots = [plan.make(tree, r), plan.make(&reversed(tree), r)];
    let flat = Tree(shuffled(terms(tree), r).into_iter().map(Part::Term).collect());
    let alike = vec![roots[0], roots[1], plan.make(&flat, r)];
    plan.turns.extend(alike.iter().map(|&place| Turn::On(place, Call::Read)));
    let totals = (0..plan.places).map(|_| damaged::any(LENGTH, r)).collect();
    Column { totals, turns: plan.turns, alike }
}

const TERMS: i32 = 24;

pub fn drawn(r: &mut Random) -> Column {
    let (form, window) = (Form::drawn(r), terms::window(r));
    let count = r.within(0, TERMS);
    of_form(form, (0..count).map(|_| term(window, r)).collect(), r)
}

pub fn of_form(form: Form, terms: Vec<Call>, r: &mut Random) -> Column {
    let tree = form.tree(&terms, r);
    column(&tree, r)
}

fn term(window: Window, r: &mut Random) -> Call {
    if r.once_in(16) {
        terms::zero(r)
    } else {
        terms::term(r, window)
    }
}

/// Trees of as many terms as a total takes, and of one more.
#[derive(Clone, Copy)]
pub enum Full {
    Chain,
    Balanced,
    Any,
    Over,
}

pub const FULL: [Full; 4] = [Full::Chain, Full::Balanced, Full::Any, Full::Over];

pub fn full(full: Full, r: &mut Random) -> Column {
    let terms = |count: u32, r: &mut Random| (0..count).map(|_| term(terms::ANY, r)).collect();
    match full {
        Full::Chain => of_form(Form::Chain, terms(MOST, r), r),
        Full::Balanced => of_form(Form::Balanced, terms(MOST, r), r),
        Full::Any => of_form(Form::Any { depth: 12 }, terms(MOST, r), r),
        // What is refused is not alike: which terms are left out goes by the order.
        Full::Over => Column { alike: Vec::new(), ..of_form(Form::Balanced, terms(MOST + 1, r), r) },
    }
}
