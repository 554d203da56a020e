//! Delay tables within their limits.

use super::random::Random;

/// Any table within the limits.
pub fn any(random: &mut Random) -> Vec<u8> {
    let c = random.between(1, 4);
    let mut bytes = vec![c as u8];
    for _ in 0..c {
        let width = random.weighted(&[(1, 1), (1, 2), (1, 3), (2, 4), (1, 5), (1, 6), (1, 7), (2, 8)]);
        bytes.extend([width, random.between(0, 8) as u8]);
        bytes.extend((0..3).map(|_| random.between(0, 4) as u8));
    }
    bytes.extend(delays(random));
    bytes
}

/// A table with room for several operations of every class in every cluster.
pub fn roomy(random: &mut Random) -> Vec<u8> {
    let c = random.between(1, 4);
    let mut bytes = vec![c as u8];
    for _ in 0..c {
        bytes.extend([random.between(4, 8) as u8, random.between(3, 8) as u8]);
        bytes.extend((0..3).map(|_| random.between(2, 4) as u8));
    }
    bytes.extend(delays(random));
    bytes
}

fn delays(random: &mut Random) -> Vec<u8> {
    let most = random.weighted(&[(1, 1), (3, 2), (4, 3), (2, 5), (4, 8)]);
    (0..5).map(|_| random.between(1, most) as u8).collect()
}
