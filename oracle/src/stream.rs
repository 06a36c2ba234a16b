//! Whole records in, lines out: the outer form that the port's programs share.

use crate::number::{Answer, DONE, TORN_INPUT};
use std::io::{self, BufWriter, Read, Write};

/// Reads records of `SIZE` bytes and lets `answer` write a line for each. A torn end gives the line `9`.
pub fn answer_records<const SIZE: usize>(
    mut answer: impl FnMut(&[u8; SIZE], &mut BufWriter<io::StdoutLock>) -> io::Result<()>,
) -> io::Result<()> {
    let mut input = io::stdin().lock();
    let mut output = BufWriter::with_capacity(1 << 16, io::stdout().lock());
    let mut block = vec![0; 1024 * SIZE];
    loop {
        let length = read_full(&mut input, &mut block)?;
        let (records, torn) = block[..length].as_chunks::<SIZE>();
        for record in records {
            answer(record, &mut output)?;
        }
        if !torn.is_empty() {
            writeln!(output, "{TORN_INPUT}")?;
        }
        if length < block.len() {
            return output.flush();
        }
    }
}

/// Fills the block as far as the input goes: a pipe may hand over less than it is asked for.
pub fn read_full(input: &mut impl Read, block: &mut [u8]) -> io::Result<usize> {
    let mut length = 0;
    while length < block.len() {
        match input.read(&mut block[length..]) {
            Ok(0) => break,
            Ok(more) => length += more,
            Err(error) if error.kind() == io::ErrorKind::Interrupted => {}
            Err(error) => return Err(error),
        }
    }
    Ok(length)
}

/// Little-endian words, as many as the array has room for.
pub fn words<const COUNT: usize>(bytes: &[u8]) -> [u64; COUNT] {
    let mut words = [0; COUNT];
    for (word, bytes) in words.iter_mut().zip(bytes.as_chunks::<8>().0) {
        *word = u64::from_le_bytes(*bytes);
    }
    words
}

pub fn write_words(output: &mut impl Write, words: &[u64]) -> io::Result<()> {
    words.iter().try_for_each(|word| output.write_all(&word.to_le_bytes()))
}

/// The line of an answer: `0` and a group of 16 digits for each word, or the number alone.
pub fn write_line(output: &mut impl Write, answer: &Answer<Vec<u64>>) -> io::Result<()> {
    match answer {
        Ok(words) => {
            write!(output, "{DONE}")?;
            for word in words {
                write!(output, " {word:016x}")?;
            }
            writeln!(output)
        }
        Err(number) => writeln!(output, "{number}"),
    }
}

/// Two lower-case digits for each byte, with nothing between.
pub fn hex(bytes: &[u8]) -> String {
    let digit = |value: u8| char::from(b"0123456789abcdef"[usize::from(value)]);
    bytes.iter().flat_map(|byte| [digit(byte >> 4), digit(byte & 15)]).collect()
}
