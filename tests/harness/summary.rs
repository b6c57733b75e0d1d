//! Prints what a run found, and its last line.

use crate::met::{Codes, Met, CODES, TEXT};
use crate::options::Options;
use crate::plan::Plan;
use crate::request::CALLS;
use crate::workers::{Failure, Found};

/// How many failures are printed in full.
const SHOWN: usize = 12;

/// Prints the summary; returns how many cases failed.
pub fn print(plan: &Plan, options: &Options, found: &Found) -> usize {
    if options.whole() {
        print_families(plan);
    }
    print_met(&found.met);
    let mut failed = print_failures(plan, options, &found.failures);
    let mut passed = found.ran - failed.min(found.ran);
    if options.whole() {
        let lacks = lacking(&found.met);
        lacks.iter().for_each(|lack| println!("FAILED {}", lack));
        failed += lacks.len();
        passed += demands() - lacks.len();
    }
    failed += options.carried.1;
    println!("{} passed, {} failed", passed + options.carried.0, failed);
    failed
}

fn print_families(plan: &Plan) {
    let mut first = 0;
    for family in &plan.families {
        println!("{:7} {} (from case {})", family.cases, family.name, first);
        first += family.cases;
    }
}

fn print_met(met: &Met) {
    let total: u64 = met.calls[1..].iter().sum();
    let each: Vec<String> = CALLS.iter().map(|&call| format!("{} {}", call.name(), met.calls[call as usize])).collect();
    println!("calls compared: {} ({}); files given to cuts: {}", total, each.join(", "), met.files);
    for name in CALLS.iter().map(|call| call.name()).chain([TEXT]) {
        println!("{}, codes met on purpose: {}", name, in_words(name, &met.on_purpose));
        println!("{}, codes met by chance: {}", name, in_words(name, &met.by_chance));
    }
    let stacks: Vec<String> =
        CALLS.iter().map(|&call| format!("{} {}", call.name(), met.stack[call as usize])).collect();
    println!("stack bytes used at most: {}", stacks.join(", "));
}

/// The codes under a name and how often each is met.
fn in_words(name: &str, codes: &Codes) -> String {
    let named = codes.iter().filter(|((one, _), _)| *one == name);
    let each: Vec<String> = named.map(|((_, code), times)| format!("{} ({})", code, times)).collect();
    each.join(", ")
}

/// Prints the failures, each with the way to run its case again; returns how many cases failed.
fn print_failures(plan: &Plan, options: &Options, failures: &[Failure]) -> usize {
    for failure in failures.iter().take(SHOWN) {
        let name = plan.find(failure.case).0.name;
        println!("FAILED case {} ({}): {}", failure.case, name, failure.words);
        println!("  again: {} --seed {} --case {}", options.again, options.seed, failure.case);
    }
    if failures.len() > SHOWN {
        println!("FAILED and {} more cases", failures.len() - SHOWN);
    }
    failures.len()
}

/// How many things a whole run must meet.
fn demands() -> usize {
    let codes: usize = CODES.iter().map(|(_, codes)| codes.len()).sum();
    2 * codes
}

/// What a whole run must meet and does not: every code of every call on purpose and by chance.
fn lacking(met: &Met) -> Vec<String> {
    let mut lacks: Vec<String> = Vec::new();
    for (call, codes) in CODES {
        for &code in codes {
            for (how, met) in [("on purpose", &met.on_purpose), ("by chance", &met.by_chance)] {
                if !met.contains_key(&(call.name(), code)) {
                    lacks.push(format!("code {} of {} is not met {}", code, call.name(), how));
                }
            }
        }
    }
    lacks
}
