//! All cases: families of cases of one kind, numbered through.

use crate::peers::{Outcome, Peers};
use crate::records::Look;
use crate::rng::Rng;
use crate::{
    chance, damage, edges, packing, paper, positions, printing, reading, relations, shares, solving, summarizing,
    unreadable, unwritable, walking, writing,
};

/// Runs the case with the index within its family.
type Run = fn(&mut Rng, usize, &mut Peers) -> Outcome;

/// Cases of one kind.
pub struct Family {
    pub name: &'static str,
    pub cases: usize,
    pub by_chance: bool,
    pub run: Run,
}

pub struct Plan {
    pub families: Vec<Family>,
}

impl Plan {
    pub fn whole() -> Plan {
        Plan {
            families: [records(), refusals(), walks(), stretches(), files(), demand_3(), programs(), texts()]
                .into_iter()
                .flatten()
                .collect(),
        }
    }

    pub fn total(&self) -> usize {
        self.families.iter().map(|family| family.cases).sum()
    }

    /// The family of a case, and its index there.
    pub fn find(&self, case: usize) -> (&Family, usize) {
        let mut index = case;
        for family in &self.families {
            if index < family.cases {
                return (family, index);
            }
            index -= family.cases;
        }
        panic!("there are only {} cases", self.total());
    }
}

fn family(name: &'static str, cases: usize, run: Run) -> Family {
    Family { name, cases, by_chance: false, run }
}

fn by_chance(name: &'static str, cases: usize, run: Run) -> Family {
    Family { name, cases, by_chance: true, run }
}

fn records() -> Vec<Family> {
    vec![
        family("record cases of the rules", paper::RECORDS.len(), paper::record_case),
        family("share table of the rules", paper::SHARES_IN_CHANNELS, paper::share_case),
        family("every smallest record", solving::SMALLEST, solving::smallest),
        family("tidy records", 120, |rng, _, peers| solving::of_look(rng, peers, Look::Tidy)),
        family("records of two values", 160, |rng, _, peers| solving::of_look(rng, peers, Look::Tied)),
        family("records of one value", 60, |rng, _, peers| solving::of_look(rng, peers, Look::Equal)),
        family("extreme records", 120, |rng, _, peers| solving::of_look(rng, peers, Look::Extreme)),
        family("records over the whole range", 120, |rng, _, peers| solving::of_look(rng, peers, Look::Uniform)),
        family("records of small numbers", 200, |rng, _, peers| solving::of_look(rng, peers, Look::Small)),
        family("ramps", 60, |rng, _, peers| solving::of_look(rng, peers, Look::Ramp)),
        family("records of five codes", 80, |rng, _, peers| solving::of_look(rng, peers, Look::Codes)),
        family("longest records", solving::LONGEST, solving::longest),
        family("the largest costs", solving::LARGEST, solving::largest),
        family("every mix of kernels and kinds", solving::MIXES, solving::mix),
        family("ties between channels", solving::TIES, solving::tie),
        family("spelling codes in every order", 30, solving::spelling_orders),
        family("shares at edges", shares::AT_EDGES, shares::at_edges),
        family("shares drawn", 300, shares::drawn),
    ]
}

fn refusals() -> Vec<Family> {
    vec![
        family("lengths and counts", edges::LENGTHS_AND_COUNTS, edges::lengths_and_counts),
        family("kinds and kernels", edges::KINDS_AND_KERNELS, edges::kinds_and_kernels),
        family("body lengths", edges::BODY_LENGTHS, edges::body_lengths),
        family("table lengths", edges::TABLE_LENGTHS, edges::table_lengths),
        family("lists of channels of every length", edges::LIST_LENGTHS, edges::list_lengths),
        family("solves refused on purpose", damage::SOLVES_ALONE, damage::solve_alone),
        family("solves refused for two reasons", damage::SOLVES_TOGETHER, damage::solve_together),
        family("the first of two bad samples", damage::BAD_SAMPLES, damage::bad_samples),
        by_chance("solves by chance", 700, chance::solve),
    ]
}

fn walks() -> Vec<Family> {
    vec![
        family("walk numbers", edges::WALK_NUMBERS, edges::walk_numbers),
        family("walk lengths", edges::OUTS, edges::outs),
        family("walks through noise", 250, walking::laid),
        family("walks with a step moved", 500, walking::moved),
        family("walks refused for two reasons", walking::TOGETHER, walking::together),
        by_chance("wild start tables", 400, walking::wild),
        by_chance("walks by chance", 400, chance::read_cuts),
    ]
}

fn stretches() -> Vec<Family> {
    vec![
        family("stretches of records", 200, summarizing::drawn),
        family("every stretch of a small record", summarizing::SMALL, summarizing::every),
        family("the largest sums", summarizing::LARGEST, summarizing::largest),
        family("room for summaries", summarizing::ROOM, summarizing::room),
        family("stretch numbers", summarizing::NUMBERS, summarizing::edges),
        family("summaries refused on purpose", damage::SUMMARIES_ALONE, damage::summary_alone),
        family("summaries refused for two reasons", damage::SUMMARIES_TOGETHER, damage::summary_together),
        by_chance("summaries by chance", 700, chance::summarize),
    ]
}

fn files() -> Vec<Family> {
    vec![
        family("files read", 100, reading::sound_file),
        family("files cut short", reading::CUT, reading::cut_short),
        family("files with bytes after", reading::LONGER, reading::longer),
        family("files with a bit flipped", reading::FLIPS, reading::flipped),
        family("files with fields swapped", 200, reading::swapped),
        family("files with a field set", reading::SET, reading::field_set),
        family("files with another count", reading::COUNTED, reading::counted),
        family("files with another form", reading::FORMED, reading::formed),
        family("files with a byte of a channel set", reading::CHANNEL_BYTES, reading::channel_byte),
        family("files of a size", reading::SIZED, reading::sized),
        family("the longest files read", reading::LONGEST_FILES, reading::longest_file),
        family("files refused on purpose", unreadable::ALONE, unreadable::alone),
        family("files refused for two reasons", unreadable::TOGETHER, unreadable::together),
        family("wrong offsets at every entry", positions::FULL, positions::misplaced),
        family("bodies past the end at every entry", positions::FULL, positions::past_end),
        family("the first of two faults of entries read", positions::READ_TWO, positions::read_two),
        by_chance("files by chance", 500, chance::read_file),
        family("files written and read back", 160, writing::there_and_back),
        family("outputs of a length", writing::OUTS, writing::outs),
        family("files written of a size", writing::SIZED, writing::sized),
        family("the longest files written", writing::LONGEST_FILES, writing::longest_file),
        family("unfit forms", writing::FORMS, writing::forms),
        family("unfit channels at every entry", writing::CHANNELS, writing::channels),
        family("writes refused on purpose", unwritable::ALONE, unwritable::alone),
        family("writes refused for two reasons", unwritable::TOGETHER, unwritable::together),
        family("runs that end in every body", positions::FULL, positions::run_ends),
        family("runs of a length", positions::LONG_RUNS, positions::long_run),
        family("the first of two faults of entries written", positions::WRITE_TWO, positions::write_two),
        by_chance("writes by chance", 400, chance::write_file),
    ]
}

fn demand_3() -> Vec<Family> {
    vec![
        family("a channel shifted", 80, |rng, _, peers| relations::moved(rng, peers, relations::shift)),
        family("a channel's signs changed", 80, |rng, _, peers| relations::moved(rng, peers, relations::sign)),
        family("a channel of spellings recoded", 80, relations::recoded),
        family("all channels moved", 120, relations::all_moved),
        family("channels regrouped", 80, relations::regrouped),
        family("samples backwards", 60, relations::reversal),
        family("halves joined", 50, relations::joining),
    ]
}

fn programs() -> Vec<Family> {
    vec![
        family("the rules' example printed", paper::EXAMPLES, paper::example_case),
        family("sound files printed", 140, printing::sound_file),
        family("refused records printed", 140, printing::refused_records),
        family("records too long printed", printing::LONG, printing::long_record),
        family("64 records printed", printing::MANY, printing::many_records),
        family("the largest file printed", printing::LARGEST, printing::largest),
        family("files of a size printed", printing::SIZED, printing::sized),
        family("the example cut short printed", printing::CUT, printing::cut_short),
        family("the example with a bit flipped printed", printing::FLIPPED, printing::flipped),
        family("other forms printed", printing::FORMED, printing::formed),
        family("wrong bodies printed", printing::WRONG, printing::wrong_body),
        family("wrong channels printed", printing::WRONG_CHANNELS, printing::wrong_channels),
        by_chance("damaged files printed", 200, printing::damaged),
        family("one term in two files printed", 45, printing::same_term),
        family("the same terms in both forms printed", 40, printing::in_both_forms),
    ]
}

fn texts() -> Vec<Family> {
    vec![
        family("texts packed", 180, packing::sound_text),
        family("words packed", 60, packing::words),
        family("shares rounded", 60, packing::rounded),
        by_chance("damaged texts packed", 200, packing::damaged),
    ]
}
