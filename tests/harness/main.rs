//! The comparing harness: puts cases drawn from a printed seed to the real C functions and to the
//! real programs, and compares every reply, byte and line with the second program.
//! Its last line is `N passed, M failed`, counting cases.

mod calendar;
mod chance;
mod damage;
mod difference;
mod driver;
mod edges;
mod files;
mod met;
mod options;
mod packed;
mod packing;
mod paper;
mod peers;
mod plan;
mod positions;
mod printers;
mod printing;
mod program;
mod reading;
mod records;
mod relations;
mod request;
mod rng;
mod shares;
mod solving;
mod summarizing;
mod summary;
mod telling;
mod texts;
mod unreadable;
mod unwritable;
mod walking;
mod workers;
mod writing;

use options::{Options, USAGE};
use plan::Plan;

fn main() {
    let options = match Options::from(std::env::args().skip(1)) {
        Some(options) => options,
        None => {
            eprintln!("usage: {}", USAGE);
            std::process::exit(2);
        }
    };
    let plan = Plan::whole();
    let cases = chosen(&plan, &options);
    if cases.is_empty() {
        eprintln!("no case is of that number or of those words");
        std::process::exit(2);
    }
    println!("seed {}: {} cases of {}", options.seed, cases.len(), plan.total());
    let found = workers::run(&plan, &cases, &options);
    let failed = summary::print(&plan, &options, &found);
    std::process::exit(i32::from(failed > 0));
}

/// The numbers of the cases that are asked for; none where there is no such case.
fn chosen(plan: &Plan, options: &Options) -> Vec<usize> {
    if let Some(case) = options.case {
        return (0..plan.total()).filter(|&one| one == case).collect();
    }
    (0..plan.total()).step_by(options.every).filter(|&case| options.wants(plan.find(case).0.name)).collect()
}
