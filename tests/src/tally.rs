//! What was asked, and what came of it.

use crate::archive::Question;
use crate::faults::{Fault, Met};
use crate::outcome::Expected;
use crate::reach;
use crate::reference::refusal::Input;
use std::collections::{BTreeMap, BTreeSet, HashSet};
use std::hash::{DefaultHasher, Hash, Hasher};

#[derive(Default)]
pub struct Tally {
    pub asked: BTreeMap<Question, u64>,
    /// Hashes of the inputs that were asked: the same one asked again counts once.
    pub inputs: HashSet<(Question, u64)>,
    pub answered: BTreeMap<Question, u64>,
    /// By question, number, input and what stood at the place.
    pub refused: BTreeMap<(Question, u8, Input, &'static str), u64>,
    /// Question, number, input, and the place itself with the byte within a triple.
    pub places: BTreeSet<(Question, u8, Input, usize, u8)>,
    /// What was reached, as src/reach.rs lists it.
    pub reached: BTreeSet<reach::Value>,
    /// By name, each fault whose inputs were met.
    pub met: BTreeMap<&'static str, Met>,
    /// The faults that are still to be met; all of them where there is nothing yet.
    pub left: Option<Vec<&'static Fault>>,
    pub wrong: Vec<String>,
}

impl Tally {
    pub fn calls(&self) -> u64 {
        self.asked.values().sum()
    }

    pub fn count(&mut self, expected: &Expected) {
        let call = &expected.outcome.left;
        let question = call.question;
        *self.asked.entry(question).or_default() += 1;
        let mut hasher = DefaultHasher::new();
        (call.chart.part(), call.sheet.part(), call.second.part(), call.list.part()).hash(&mut hasher);
        (call.name, call.buffer.len()).hash(&mut hasher);
        self.inputs.insert((question, hasher.finish()));
        self.reached.extend(reach::by(&expected.outcome));
        match expected.refused {
            None => *self.answered.entry(question).or_default() += 1,
            Some(r) => {
                *self.refused.entry((question, r.number, r.input, r.what)).or_default() += 1;
                self.places.insert((question, r.number, r.input, r.place, r.byte));
            }
        }
    }

    /// Adds what came of the next job.
    pub fn add(&mut self, other: Tally) {
        let before = self.calls();
        for (name, met) in other.met {
            let met = Met { after: before + met.after, ..met };
            self.met.entry(name).and_modify(|first| first.join(met)).or_insert(met);
        }
        for (question, count) in other.asked {
            *self.asked.entry(question).or_default() += count;
        }
        self.inputs.extend(other.inputs);
        for (question, count) in other.answered {
            *self.answered.entry(question).or_default() += count;
        }
        for (key, count) in other.refused {
            *self.refused.entry(key).or_default() += count;
        }
        self.places.extend(other.places);
        self.reached.extend(other.reached);
        self.wrong.extend(other.wrong);
    }
}
