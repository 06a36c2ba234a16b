//! The operations of the answering program, the kinds of words that each takes and the kinds that it gives.

use crate::answers::FLOATS;

/// f a float, p a point, i an interval, r a rectangle or window, v a vector, n a normal, F a face, A an axis number,
/// D a direction, b a word that is 0 or not (a yes/no, a corner's side, an axis), L a buffer's length, C a count of
/// floats, S so many of them in room for the most, N a trace number, always last, B a float that fills a buffer; W a
/// walk: the count of its records and the buffer, T a trace: its counts and the buffer, P a part of a trace: its first
/// sample and how many it has, K a kept edge and how many boxes were opened, H boxes of halves: how many floats, then a
/// search with its number, and the buffer.
pub const OPERATIONS: [(u64, &str, &str); 53] = [
    (1, "pp", "p"),
    (2, "pp", "p"),
    (3, "pf", "p"),
    (4, "p", "p"),
    (5, "pp", "f"),
    (6, "pp", "f"),
    (7, "ff", "p"),
    (10, "i", "b"),
    (11, "if", "b"),
    (12, "ii", "b"),
    (13, "ii", "b"),
    (14, "ii", "i"),
    (15, "ii", "i"),
    (17, "ff", "i"),
    (19, "", "r"),
    (20, "pp", "r"),
    (21, "r", "pppp"),
    (22, "rbb", "p"),
    (23, "r", "pp"),
    (24, "r", "b"),
    (25, "rp", "b"),
    (26, "rr", "b"),
    (27, "rr", "b"),
    (28, "rr", "r"),
    (29, "rr", "r"),
    (30, "fffff", "f"),
    (31, "ibf", "i"),
    (32, "ffiffibi", "ii"),
    (33, "pprr", "r"),
    (34, "ppr", "pp"),
    (35, "ppr", "b"),
    (40, "v", "F"),
    (41, "v", "Fff"),
    (42, "Fv", "ff"),
    (43, "Fff", "v"),
    (44, "Fv", "v"),
    (45, "FAD", "F"),
    (46, "F", "v"),
    (47, "F", "v"),
    (48, "Ff", "v"),
    (49, "Ff", "v"),
    (50, "n", "b"),
    (51, "n", "b"),
    (52, "n", "b"),
    (53, "n", "b"),
    (54, "nb", "p"),
    (55, "FpbnF", "F"),
    (60, "FpFpnLN", "W"),
    (61, "CLrSN", "T"),
    (62, "CLrSN", "T"),
    (63, "CrS", "P"),
    (64, "CLrSB", "H"),
    (65, "CLrSB", "K"),
];

/// A request is drawn from the first so many. Those from 62 on are not among them: 62 takes the place of some 61, and 63
/// to 65 that of some of any (`requests.rs`), which moves no other request of a seed.
pub const DRAWN: usize = OPERATIONS.len() - 4;

/// The operations whose answers are hardest to get right: they are asked more often.
pub const HARD: [u64; 7] = [34, 50, 51, 52, 60, 60, 61];

/// Those that write records into a buffer that they are lent, the trace number in each. 62 is not drawn here either.
pub const LENT: [u64; 3] = [60, 61, 62];

/// A whole trace, touches dropped or with touches (change request W10).
pub fn is_trace(operation: u64) -> bool {
    matches!(operation, 61 | 62)
}

/// The boxes of a trace and the search in them (change request W6).
pub fn is_paged(operation: u64) -> bool {
    matches!(operation, 64 | 65)
}

/// Module 4, the trace, its longest clean stretch and its boxes, which admit no float beyond the limit.
pub fn is_limited(operation: u64) -> bool {
    matches!(operation, 30..=35 | 63) || is_trace(operation) || is_paged(operation)
}

/// The kinds of an operation's arguments and of its results; none where it is not listed.
pub fn kinds(operation: u64) -> (&'static str, &'static str) {
    let listed = OPERATIONS.iter().find(|(listed, _, _)| *listed == operation);
    listed.map_or(("", ""), |(_, arguments, results)| (arguments, results))
}

/// So many words of a request are for an argument of this kind.
pub fn words_for(kind: char) -> usize {
    match kind {
        'f' | 'F' | 'A' | 'D' | 'b' | 'L' | 'C' | 'N' | 'B' => 1,
        'p' | 'i' => 2,
        'v' | 'n' => 3,
        'r' => 4,
        'S' => FLOATS,
        _ => unreachable!("no kind of word is called {kind}"),
    }
}

/// Which word of a request is the trace number; none where the operation takes none.
pub fn trace_number_place(operation: u64) -> Option<usize> {
    let before = kinds(operation).0.strip_suffix('N')?;
    Some(1 + before.chars().map(words_for).sum::<usize>())
}
