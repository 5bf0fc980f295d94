//! Files of captured chunks from a seed: whole ones, cut ones, other versions; chunks of every kind, around every limit.
use crate::rng::Rng;

/// A DATA chunk with so many data bytes.
pub fn data(tsn: u32, flags: u8, size: usize) -> Vec<u8> {
    let mut chunk = vec![0, flags];
    chunk.extend((16 + size as u16).to_be_bytes());
    chunk.extend(tsn.to_be_bytes());
    chunk.extend([0, 2, 0, 5, 0, 0, 0, 51]);
    chunk.resize(16 + size, b'x');
    chunk
}

/// A record of it.
pub fn put(file: &mut Vec<u8>, chunk: &[u8]) {
    file.extend((chunk.len() as u16).to_be_bytes());
    file.extend(chunk);
}

/// TSNs that are near one another, near 0 on both sides, and near half way round.
fn tsn(rng: &mut Rng) -> u32 {
    match rng.below(8) {
        0 => (rng.within(0, 6) as u32).wrapping_sub(3),
        1 => 0x8000_0000u32.wrapping_add(rng.pick(&[0, 1, 2, u32::MAX, u32::MAX - 1])),
        2 => rng.number() as u32 | 1,
        _ => rng.within(1, 40) as u32,
    }
}

fn chunk(rng: &mut Rng) -> Vec<u8> {
    let size = if rng.one_in(40) { rng.within(0, 65_519) } else { rng.within(0, 40) } as usize;
    let mut chunk = data(tsn(rng), rng.byte(), size);
    match rng.below(12) {
        0 => chunk.truncate(rng.within(0, 20) as usize),
        1 => chunk[0] = rng.byte(),
        2 => {
            let length = rng.within(0, 24) as u16;
            chunk[2..4].copy_from_slice(&length.to_be_bytes());
        }
        3 => {
            let length = (chunk.len() as u16).wrapping_add(rng.within(0, 6) as u16).wrapping_sub(3);
            chunk[2..4].copy_from_slice(&length.to_be_bytes());
        }
        4 => chunk.resize((chunk.len() + rng.within(1, 4) as usize).min(65_535), 0),
        _ => {}
    }
    chunk
}

/// More TSNs than the queue holds, and the first ones again.
fn full(file: &mut Vec<u8>, rng: &mut Rng) {
    let first = rng.within(1, 1_000) as u32;
    for i in 0..1_024 + rng.below(4) as u32 {
        put(file, &data(first + i, 3, 1));
    }
    put(file, &data(first, 3, 1));
}

/// The n-th file of a seed.
pub fn file(seed: u64, n: u64) -> Vec<u8> {
    let mut rng = Rng::nth(seed, n);
    let mut file = vec![1];
    match rng.below(60) {
        0 => return Vec::new(),
        1 => file[0] = rng.pick(&[0, 2, 10, 255]),
        2 => full(&mut file, &mut rng),
        // more lines than the program gathers
        3 => (0..rng.within(20_000, 50_000)).for_each(|_| put(&mut file, &[])),
        // longer than the program's window
        4 => while file.len() < 600_000 {
            put(&mut file, &data(tsn(&mut rng), 3, 40_000 + rng.below(25_520) as usize));
        },
        _ => {}
    }
    for _ in 0..rng.below(30) {
        put(&mut file, &chunk(&mut rng));
    }
    if rng.one_in(3) {
        let cut = rng.within(1, 5).min(file.len() as u64 - 1);
        file.truncate(file.len() - cut as usize);
    } else if rng.one_in(4) {
        file.push(rng.byte());
    }
    file
}

/// A file for the gate: every kind of line, a full queue, a chunk of the longest length, and a cut end.
pub fn recorded() -> Vec<u8> {
    let mut file = vec![1];
    put(&mut file, &[0x0A, 0, 0, 4]);
    for chunk in [data(1, 3, 3), data(1, 3, 3), data(0, 3, 1), data(u32::MAX, 3, 1), data(0x8000_0000, 3, 1), data(3, 7, 65_519), data(2, 0, 40), data(5, 3, 0)] {
        put(&mut file, &chunk);
    }
    for length in [0u16, 3, 15, 16, 17, 18, 19, 20] {
        let mut chunk = data(4, 3, 2);
        chunk[2..4].copy_from_slice(&length.to_be_bytes());
        put(&mut file, &chunk);
    }
    for n in 0..5 {
        put(&mut file, &data(9, 3, 1)[..n]);
    }
    for tsn in 100..1_130 {
        put(&mut file, &data(tsn, 3, 1));
    }
    put(&mut file, &data(2_000, 3, 1));
    put(&mut file, &data(100, 3, 1));
    file.extend([0, 20, 0, 3]);
    file
}
