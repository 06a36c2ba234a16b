//! `oracle cut`: the line that document 01's program has to give for each record.
//! `oracle crate-cut`: the line of the crate's own answer, nothing refused.

use crate::number::Answer;
use crate::r2::{point::Point, rect::Rect};
use crate::stream::{answer_records, words, write_line};
use crate::whose::Whose;
use crate::words::{shown, Arguments};
use std::io;

/// Words of a record: a, b, the window's low corner and its high corner.
pub const RECORD: usize = 8;

pub fn run(clip_edge: impl Fn(Whose, Point, Point, Rect) -> Answer<(Point, Point)>) -> io::Result<()> {
    answer_records(|record: &[u8; 8 * RECORD], output| {
        let record: [u64; RECORD] = words(record);
        let mut a = Arguments::new(&record);
        write_line(output, &shown(clip_edge(Whose::Crates, a.take(), a.take(), a.take())))
    })
}
