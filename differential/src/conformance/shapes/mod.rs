//! Cases that are drawn: each shape has the sentence that it tests, a way to draw a run, and what has to come up in it.

mod breach;
mod declines;
mod disclosures;
mod files;
mod levels;
mod long;
mod models;
mod play;
mod questions;
mod refusals;
mod requests;
mod sessions;
mod weights;

use super::case::{Run, Sentence};
use super::facts::Facts;
use crate::random::Random;

type Draw = Box<dyn Fn(&mut Random) -> Run + Send + Sync>;
type Test = Box<dyn Fn(&Facts) -> bool + Send + Sync>;

/// Larger policies are for shapes that want them: the pack is to be small.
const MOST_RECORDS: usize = 24;

/// A shape that does not come up in so many runs is drawn in the wrong way.
const MOST_TRIES: usize = 50_000;

pub struct Shape {
    pub name: String,
    pub tests: Sentence,
    /// How many cases of it the pack has.
    pub cases: usize,
    most: usize,
    draw: Draw,
    is: Test,
}

impl Shape {
    /// A shape of so many cases.
    fn new(
        name: impl Into<String>,
        tests: Sentence,
        cases: usize,
        draw: impl Fn(&mut Random) -> Run + Send + Sync + 'static,
        is: impl Fn(&Facts) -> bool + Send + Sync + 'static,
    ) -> Shape {
        Shape {
            name: name.into(),
            tests,
            cases,
            most: MOST_RECORDS,
            draw: Box::new(draw),
            is: Box::new(is),
        }
    }

    /// The same with policies of so many records.
    fn of_at_most(self, most: usize) -> Shape {
        Shape { most, ..self }
    }

    /// The same with policies of any length.
    fn of_any_length(self) -> Shape {
        self.of_at_most(usize::MAX)
    }

    /// A run of this shape.
    pub fn run(&self, random: &mut Random) -> Run {
        for _ in 0..MOST_TRIES {
            let run = (self.draw)(random);
            let fits = run
                .bytes()
                .is_none_or(|bytes| bytes.len() / 18 <= self.most);
            if fits && (self.is)(&Facts::new(&run)) {
                return run;
            }
        }
        panic!("shape {} does not come up", self.name);
    }
}

/// The shapes of one subject, which is also the name of their file.
pub struct Subject {
    pub name: &'static str,
    pub shapes: Vec<Shape>,
}

pub fn subjects() -> Vec<Subject> {
    let subject = |name, shapes| Subject { name, shapes };
    vec![
        subject("refusals", refusals::shapes()),
        subject("requests", requests::shapes()),
        subject("files", files::shapes()),
        subject("levels", levels::shapes()),
        subject("models", models::shapes()),
        subject("breach", breach::shapes()),
        subject("disclosure", disclosures::shapes()),
        subject("questions", questions::shapes()),
        subject("weights", weights::shapes()),
        subject("declines", declines::shapes()),
        subject("sessions", sessions::shapes()),
    ]
}

/// One of all the shapes.
pub fn any<'a>(subjects: &'a [Subject], random: &mut Random) -> &'a Shape {
    let all: Vec<&Shape> = subjects.iter().flat_map(|s| &s.shapes).collect();
    all[random.below(all.len())]
}
