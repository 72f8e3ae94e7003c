//! A filter by hand over raw samples of four bytes, the lowest one first: it reads them from standard input,
//! copies each as a number from one list to another, and writes them to standard output. It has no proofs, no
//! graph, and one thread.

use std::io::{self, Read, Write};

const SIZE: usize = 4;
const MOST: usize = 65_536;

/// Reads until the bytes are as many as they may be, or no more come. Answers how many there are.
fn fill(input: &mut impl Read, bytes: &mut [u8]) -> io::Result<usize> {
    let mut count = 0;
    while count < bytes.len() {
        match input.read(&mut bytes[count..])? {
            0 => break,
            more => count += more,
        }
    }
    Ok(count)
}

fn main() -> io::Result<()> {
    let (mut input, mut output) = (io::stdin().lock(), io::stdout().lock());
    let mut bytes = vec![0; SIZE * MOST];
    let mut read: Vec<i32> = Vec::with_capacity(MOST);
    let mut copied: Vec<i32> = Vec::with_capacity(MOST);
    loop {
        let count = fill(&mut input, &mut bytes)?;
        assert!(count % SIZE == 0, "a sample is cut off");
        read.clear();
        read.extend(bytes[..count].chunks_exact(SIZE).map(|it| i32::from_le_bytes(it.try_into().unwrap())));
        copied.clear();
        copied.extend(read.iter().copied());
        for (place, number) in bytes.chunks_exact_mut(SIZE).zip(&copied) {
            place.copy_from_slice(&number.to_le_bytes());
        }
        output.write_all(&bytes[..count])?;
        if count < bytes.len() {
            return output.flush();
        }
    }
}
