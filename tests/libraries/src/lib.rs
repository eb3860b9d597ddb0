//! Tests of the libraries, above all of what no run of the program shows: want of memory, readers and writers that fail, runs
//! and the machine that steps through them, what is public beside them. The rest stands in tests/runs.
#![tactic(auto)]

#[cfg(test)]
mod addresses;
#[cfg(test)]
mod as_a_library;
#[cfg(test)]
mod by_parts;
#[cfg(test)]
mod counted;
#[cfg(test)]
mod crowd;
#[cfg(test)]
mod diagnosed;
#[cfg(test)]
mod examples;
#[cfg(test)]
mod expressions;
#[cfg(test)]
mod faults;
#[cfg(test)]
mod from_the_specification;
#[cfg(test)]
mod from_the_specification_events;
#[cfg(test)]
mod from_the_specification_runs;
#[cfg(test)]
mod from_the_specification_texts;
#[cfg(test)]
mod gates;
#[cfg(test)]
mod histories;
#[cfg(test)]
mod inquiries;
#[cfg(test)]
mod lent_parts;
#[cfg(test)]
mod lines;
#[cfg(test)]
mod lists;
#[cfg(test)]
mod live_events;
#[cfg(test)]
mod logged;
#[cfg(test)]
mod long_lists;
#[cfg(test)]
mod narrow_devices;
#[cfg(test)]
mod numbered;
#[cfg(test)]
mod numbers;
#[cfg(test)]
mod offers;
#[cfg(test)]
mod one;
#[cfg(test)]
mod own_devices;
#[cfg(test)]
mod parsing;
#[cfg(test)]
mod passes;
#[cfg(test)]
mod random;
#[cfg(test)]
mod rollbacks;
#[cfg(test)]
mod rolled_forms;
#[cfg(test)]
mod rows_of_items;
#[cfg(test)]
mod runs;
#[cfg(test)]
mod same_runs;
#[cfg(test)]
mod sessions;
#[cfg(test)]
mod shared_sessions;
#[cfg(test)]
mod sharing;
#[cfg(test)]
mod shells;
#[cfg(test)]
mod specified;
#[cfg(test)]
mod specified_forms;
#[cfg(test)]
mod specified_numbers;
#[cfg(test)]
mod specified_parts;
#[cfg(test)]
mod steps;
#[cfg(test)]
mod streams;
#[cfg(test)]
mod systems;
#[cfg(test)]
mod tokens;
#[cfg(test)]
mod told;
#[cfg(test)]
mod traces;
#[cfg(test)]
mod transcripts;
#[cfg(test)]
mod trees;
#[cfg(test)]
mod two_people;
#[cfg(test)]
mod unlocked;
#[cfg(test)]
mod values;
#[cfg(test)]
mod views;
#[cfg(test)]
mod workers;
