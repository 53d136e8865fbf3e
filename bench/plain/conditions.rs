//! Reads conditions as bench/plain.py writes them, decides each, and tells passes, clauses and times. Nothing here is proved.
use crate::clause_search::{Outcome, solve};
use crate::csdn_core::program::{Constant, Parts, Program, Relation};
use crate::csdn_core::syntax::Formula;
use crate::csdn_core::terms::{ConstId, Pred, RelId, Sort, Term, Terms, VarId};
use crate::kit::{Boxed, Global, Items};
use crate::lazy_ground::adding::add_broken;
use crate::lazy_ground::starting::ground_start;
use std::str::SplitAsciiWhitespace;
use std::time::Instant;

struct Words<'a>(SplitAsciiWhitespace<'a>);

impl<'a> Words<'a> {
    fn of(line: Option<&'a str>) -> Self {
        Words(line.expect("a line").split_ascii_whitespace())
    }
    fn word(&mut self) -> &'a str {
        self.0.next().expect("a word")
    }
    fn number(&mut self) -> u32 {
        self.word().parse().expect("a number")
    }
    fn sort(&mut self) -> Sort {
        match self.word() {
            "SW" => Sort::Sw,
            "HO" => Sort::Ho,
            _ => Sort::Pr,
        }
    }
    fn sorts(&mut self) -> std::vec::Vec<Sort> {
        (0..self.number()).map(|_| self.sort()).collect()
    }
    fn term(&mut self) -> Term {
        let (kind, number) = self.word().split_at(1);
        let number: u32 = number.parse().expect("a number");
        match kind {
            "p" => Term::Port(number as u16),
            "v" => Term::Var(VarId(number)),
            _ => Term::Const(ConstId(number)),
        }
    }
    fn relation(&mut self) -> Pred {
        match self.word() {
            "ft" => Pred::Ft,
            "sent" => Pred::Sent,
            "rcv_this" => Pred::RcvThis,
            stored => Pred::Stored(RelId(stored[1..].parse().expect("a number"))),
        }
    }
    fn row(&mut self) -> Formula {
        let relation = self.relation();
        let mut terms = Terms::new();
        for _ in 0..self.number() {
            terms.push(self.term());
        }
        Formula::Atom(relation, terms)
    }
    fn part(&mut self) -> Boxed<Formula> {
        Boxed(Box::new(self.formula()))
    }
    fn formula(&mut self) -> Formula {
        match self.word() {
            "true" => Formula::True,
            "false" => Formula::False,
            "row" => self.row(),
            "=" => Formula::Same(self.term(), self.term()),
            "not" => Formula::Not(self.part()),
            "and" => Formula::And(self.part(), self.part()),
            "or" => Formula::Or(self.part(), self.part()),
            "imp" => Formula::Implies(self.part(), self.part()),
            "iff" => Formula::Iff(self.part(), self.part()),
            "forall" => Formula::Forall(VarId(self.number()), self.sort(), self.part()),
            "exists" => Formula::Exists(VarId(self.number()), self.sort(), self.part()),
            word => panic!("{word}"),
        }
    }
}

fn relation_of(line: Option<&str>) -> Relation {
    Relation {
        name: Items(vec![]),
        sorts: Items(Words::of(line).sorts()),
        fixed: false,
    }
}

fn constant_of(sort: Sort) -> Constant {
    Constant {
        name: Items(vec![]),
        sort,
    }
}

fn program_of(lines: &mut std::str::Lines) -> Program {
    let count = Words::of(lines.next()).number();
    let relations = (0..count).map(|_| relation_of(lines.next())).collect();
    let constants = Words::of(lines.next()).sorts().into_iter().map(constant_of).collect();
    let mut words = Words::of(lines.next());
    let numerals = (0..words.number()).map(|_| words.number() as u16).collect();
    Program::seal(Parts {
        relations: Items(relations),
        constants: Items(constants),
        start: Items(vec![]),
        topology: Items(vec![]),
        safety: Items(vec![]),
        trans: Items(vec![]),
        handlers: Items(vec![]),
        numerals: Items(numerals),
        timeout: None,
    })
}

/// The verdict, and how many passes and clauses it took.
fn decided(program: &Program, sentence: &Formula) -> (&'static str, usize, usize) {
    let mut lazy = ground_start(Global, program, sentence).expect("memory");
    let mut passes = 0;
    loop {
        passes += 1;
        match solve(Global, &lazy.made.clauses).expect("memory") {
            Outcome::Refuted(_) => return ("valid", passes, lazy.made.clauses.len()),
            Outcome::Model(valuation) => {
                if add_broken(&mut lazy, Global, program, &valuation).expect("memory") == 0 {
                    return ("broken", passes, lazy.made.clauses.len());
                }
            }
        }
    }
}

pub fn main() {
    let words: std::vec::Vec<String> = std::env::args().collect();
    let text = std::fs::read_to_string(&words[1]).expect("a file");
    let wanted = words.get(2).map_or("", String::as_str);
    let mut lines = text.lines();
    let program = program_of(&mut lines);
    let (mut count, mut all_passes, mut all_clauses, mut all, mut worst) = (0, 0, 0, 0.0, 0.0f64);
    for line in lines {
        let mut words = Words::of(Some(line));
        let (level, kind) = (words.word(), words.word());
        if !kind.contains(wanted) {
            continue;
        }
        let sentence = words.formula();
        let start = Instant::now();
        let (verdict, passes, clauses) = decided(&program, &sentence);
        let taken = start.elapsed().as_secs_f64() * 1e3;
        println!("{level} {kind}: {verdict}, {passes} passes, {clauses} clauses, {taken:.2} ms");
        (count, all_passes, all_clauses) = (count + 1, all_passes + passes, all_clauses + clauses);
        (all, worst) = (all + taken, worst.max(taken));
    }
    println!("{count} conditions, {all_passes} passes, {all_clauses} clauses, {all:.1} ms, the worst {worst:.1} ms");
}
