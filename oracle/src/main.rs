//! Runs the text of the crate s2 0.2.0, unchanged and with one clamp, to be compared with the port.

mod agree;
mod answers;
mod boxes;
mod clamped;
#[cfg(test)]
mod classes;
mod clip;
mod crate_s2;
mod cube;
mod cut;
#[cfg(test)]
mod differences;
mod finite;
mod floats;
mod grid;
#[cfg(test)]
mod instances;
mod kept;
mod likeness;
#[cfg(test)]
mod limit;
mod line;
mod near;
mod number;
#[cfg(test)]
mod opened;
mod operations;
#[cfg(test)]
mod page;
mod pages;
mod past;
mod plane;
mod promises;
mod random;
mod records;
mod requests;
mod rules;
#[cfg(test)]
mod runs;
mod same;
mod samples;
mod shapes;
#[cfg(test)]
mod stored;
mod stream;
mod stretch;
mod stretches;
#[cfg(test)]
mod touches;
mod touching;
mod trace;
#[cfg(test)]
mod trace_numbers;
mod traces;
mod walk;
mod whole;
mod whose;
mod words;
mod zeros;

// The crate's files look for each other here, and for `libm` among the crates beside them.
use crate_s2::missing::remquo;
use crate_s2::{consts, point, r1, r2, r3, s1, s2};
extern crate self as libm;

use std::process::ExitCode;
use std::{env, io};
use trace::Touches;
use whose::Whose;

const USAGE: &str = "\
oracle cut < RECORDS            a line for each 64-byte record, as document 01's program writes it
oracle crate-cut < RECORDS      the same from the crate alone, nothing refused: a dead sample is drawn
oracle records KIND N SEED      N seeded records; KIND is bits or edges
oracle trace < SAMPLES          a 40-byte record for each edge of a trace: a window, then samples, all floats of 8 bytes
oracle trace NUMBER < SAMPLES   the same with this trace number in every record; else it is 0
oracle trace [NUMBER] touches < SAMPLES
                                the same with touches; else an edge that only touches the window is missed
oracle samples N SEED           a window and N seeded samples
oracle stretch < SAMPLES        the line of the longest clean stretch: the number, its first sample and its count of them
oracle stretch-inputs N SEED FOLDER
                                N seeded windows with samples, for that, in the files 1 to N; and the line of each
oracle answers < REQUESTS       a line for each 192-byte request, as the answering program writes it
oracle list < REQUESTS          the same as our definitions have it: zeros that the crate leaves open, and the clamp
oracle requests N SEED          N seeded requests, every operation among them
oracle requests N SEED before W4
                                the same before W4: 63 takes the place of none, and neither do 64 and 65
oracle lent N SEED              N seeded requests of the operations that write records
oracle touching N SEED          N seeded requests of traces with many edges that only touch the window
oracle stretches N SEED         N seeded requests of the longest clean stretch of a trace
oracle pages N SEED             N seeded requests of the boxes of a trace and the search in them
oracle paging N WINDOWS SEED    such requests of N seeded traces, each with so many windows
oracle before W10 < REQUESTS    these seeded requests as they were before W10, by 61 for 62; before W7, unnumbered too
oracle past N SEED              searches N seeded requests for what the clamp changes; 1 when it is not as it has to be
oracle past-requests N SEED     those requests
oracle near N SEED              searches N seeded cuts for the value farthest from the line; 1 when that is too far
oracle near N SEED RULE         the same of another rule: quotient-first, slope-first, farther-end or intercept
oracle grid                     every request over short lists of words
oracle kept                     the requests that keep docs/DIFFERENCES.md, but for those that came with W10
oracle kept W10                 those
oracle same PROGRAM INPUT A B   compares two files that cut, answers, trace or trace-with-touches wrote for INPUT; 1 when
                                they differ but by the clamp";

fn main() -> ExitCode {
    let arguments: Vec<String> = env::args().skip(1).collect();
    let arguments: Vec<&str> = arguments.iter().map(String::as_str).collect();
    match run(&arguments) {
        Ok(true) => ExitCode::SUCCESS,
        Ok(false) => ExitCode::from(1),
        Err(error) => {
            eprintln!("oracle: {error}");
            ExitCode::from(2)
        }
    }
}

/// Says no where a comparison found a difference.
fn run(arguments: &[&str]) -> io::Result<bool> {
    match arguments {
        ["cut"] => cut::run(clip::clip_edge)?,
        ["crate-cut"] => cut::run(clip::clip_edge_unrefused)?,
        ["trace"] => trace::run(Touches::Dropped, 0)?,
        ["trace", "touches"] => trace::run(Touches::Kept, 0)?,
        ["trace", number] => trace::run(Touches::Dropped, trace_number(number)?)?,
        ["trace", number, "touches"] => trace::run(Touches::Kept, trace_number(number)?)?,
        ["samples", count, seed] => samples::run(whole(count)?, whole(seed)?)?,
        ["stretch"] => stretch::run()?,
        ["stretch-inputs", count, seed, folder] => stretches::run_inputs(whole(count)?, whole(seed)?, folder)?,
        ["answers"] => answers::run(Whose::Crates)?,
        ["list"] => answers::run(Whose::Ours)?,
        ["requests", count, seed] => requests::run(requests::request, whole(count)?, whole(seed)?)?,
        ["requests", count, seed, "before", "W4"] => requests::run(requests::before_w4, whole(count)?, whole(seed)?)?,
        ["lent", count, seed] => requests::run(requests::lent, whole(count)?, whole(seed)?)?,
        ["touching", count, seed] => requests::run(touching::request, whole(count)?, whole(seed)?)?,
        ["stretches", count, seed] => requests::run(stretches::request, whole(count)?, whole(seed)?)?,
        ["pages", count, seed] => requests::run(pages::request, whole(count)?, whole(seed)?)?,
        ["paging", traces, windows, seed] => pages::run_paging(whole(traces)?, whole(windows)?, whole(seed)?)?,
        ["before", landing] => requests::run_before(landing)?,
        ["past", count, seed] => return past::run(whole(count)?, whole(seed)?),
        ["past-requests", count, seed] => requests::run(past::request, whole(count)?, whole(seed)?)?,
        ["near", count, seed] => return near::run(whole(count)?, whole(seed)?),
        ["near", count, seed, name] => {
            let other = rules::OTHERS.iter().find(|(other, _)| other == name);
            let (_, rule) = other.ok_or_else(|| io::Error::other(format!("no such rule: {name}")))?;
            near::of_rule(*rule, whole(count)?, whole(seed)?)?;
        }
        ["grid"] => grid::run()?,
        ["kept"] => kept::run(kept::KEPT)?,
        ["kept", "W10"] => kept::run(kept::W10)?,
        ["records", kind, count, seed] => records::run(kind, whole(count)?, whole(seed)?)?,
        ["same", program, input, one, other] => return same::run(program, input, one, other),
        _ => return Err(io::Error::other(format!("usage:\n{USAGE}"))),
    }
    Ok(true)
}

fn whole(argument: &str) -> io::Result<u64> {
    argument.parse().map_err(|_| io::Error::other(format!("{argument:?} is not a whole number")))
}

fn trace_number(argument: &str) -> io::Result<u32> {
    let none = |_| io::Error::other(format!("{argument:?} is not a trace number, 0 to {}", u32::MAX));
    argument.parse().map_err(none)
}
