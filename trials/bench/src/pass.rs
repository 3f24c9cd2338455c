//! A plain pass over bytes, which times are held against.

/// The bytes as words of 64 bits, summed. Eight sums at a time: with fewer the time would depend on where the linker puts the
/// loop.
pub fn sum(bytes: &[u8]) -> u64 {
    let (lines, rest) = bytes.as_chunks::<64>();
    let sums = lines.iter().fold([0; 8], |sums, line| add(sums, words(line)));
    let rest = rest.iter().map(|byte| u64::from(*byte));
    sums.into_iter().chain(rest).fold(0, u64::wrapping_add)
}

fn words(line: &[u8; 64]) -> [u64; 8] {
    let (words, _) = line.as_chunks();
    std::array::from_fn(|place| u64::from_le_bytes(words[place]))
}

fn add(sums: [u64; 8], words: [u64; 8]) -> [u64; 8] {
    std::array::from_fn(|place| sums[place].wrapping_add(words[place]))
}
