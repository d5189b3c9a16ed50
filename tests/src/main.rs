//! Holds the proved archive against documents 01 and 02, by an independent implementation of them (reference/) on some hundred
//! thousand inputs a question. The inputs are the same in every run. Exits with 1 where anything differs, where a question had
//! less than 200,000 inputs, where a refusal that can occur was not met at every place and byte that it can have (table.rs),
//! where something else that must be reached was not (reach.rs), or where a fault that is put into the archive's answers was not
//! noticed (faults/).
//!
//!     checks               all of it
//!     checks faults        the same, but what is shown is a line for each fault
//!     checks faults NAME   with that fault in every answer which it alters, until a part notices it

mod archive;
mod checker;
mod counts;
mod faults;
mod inputs;
mod lines;
mod outcome;
mod parts;
mod reach;
mod reference;
mod rows;
mod spelled;
mod steps;
mod table;
mod tally;

use checker::Checker;
use faults::Fault;
use std::sync::atomic::{AtomicUsize, Ordering};
use std::sync::Mutex;
use tally::Tally;

/// A share of the work, which one thread does.
pub struct Job {
    pub name: &'static str,
    pub run: Box<dyn Fn(&mut Checker) + Send + Sync>,
}

/// What came of each job. The threads take the next one as they come free; where there is a fault, until a job notices it.
fn run(jobs: &[Job], fault: Option<&'static Fault>) -> Vec<Tally> {
    let next = AtomicUsize::new(0);
    let tallies: Mutex<Vec<Option<Tally>>> = Mutex::new(jobs.iter().map(|_| None).collect());
    let threads = std::thread::available_parallelism().map_or(2, |n| n.get());
    std::thread::scope(|scope| {
        for _ in 0..threads {
            scope.spawn(|| {
                let mut archive = archive::Archive::start();
                loop {
                    let i = next.fetch_add(1, Ordering::Relaxed);
                    let Some(job) = jobs.get(i) else { break };
                    // the seed is the job's own, so that the inputs do not depend on the threads
                    let mut checker = Checker::new(&mut archive, fault, job.name, i as u64);
                    (job.run)(&mut checker);
                    if fault.is_some() && !checker.tally.wrong.is_empty() {
                        next.store(jobs.len(), Ordering::Relaxed);
                    }
                    tallies.lock().unwrap()[i] = Some(checker.tally);
                }
            });
        }
    });
    tallies.into_inner().unwrap().into_iter().flatten().collect()
}

/// What came of all jobs, where a fault is put into the archive's answers or none.
fn whole(fault: Option<&'static Fault>) -> Tally {
    let mut whole = Tally::default();
    // in the order of the jobs, so that the same is counted whatever the threads did
    run(&parts::jobs(), fault).into_iter().for_each(|tally| whole.add(tally));
    // the shortest are the easiest to look at
    whole.wrong.sort_by_key(|wrong| wrong.len());
    for wrong in whole.wrong.iter().take(10) {
        println!("WRONG {wrong}\n");
    }
    whole
}

/// The checks, or the faults among them alone. True where all is fine.
fn checks(only_faults: bool) -> bool {
    let whole = whole(None);
    if !only_faults {
        table::show(&whole);
        println!();
    }
    faults::show(&whole);
    let failings: Vec<_> = table::failings(&whole).into_iter().chain(faults::failings(&whole)).collect();
    for failing in failings.iter().take(30) {
        println!("\nFAILED {failing}");
    }
    whole.wrong.is_empty() && failings.is_empty()
}

fn main() {
    let arguments: Vec<String> = std::env::args().skip(1).collect();
    let fine = match arguments.iter().map(String::as_str).collect::<Vec<_>>()[..] {
        [] => checks(false),
        ["faults"] => checks(true),
        ["faults", name] => whole(Some(faults::named(name))).wrong.is_empty(),
        _ => panic!("checks [faults [NAME]]"),
    };
    println!("\nchecks {}", if fine { "passed" } else { "FAILED" });
    std::process::exit(!fine as i32);
}
