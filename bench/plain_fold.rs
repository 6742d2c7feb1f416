// The fold that `bench/fold` times, in plain Rust: the newest of each piece, sorted, is merged with
// the replica's sorted vector into a new one.

type Pair = ((u32, u32), (u64, u32));

// The pairs of both, in order of place, the newer one where both have the place.
fn merged(left: &[Pair], right: &[Pair]) -> Vec<Pair> {
    let mut pairs = Vec::with_capacity(left.len() + right.len());
    let (mut i, mut j) = (0, 0);
    while i < left.len() && j < right.len() {
        match left[i].0.cmp(&right[j].0) {
            std::cmp::Ordering::Less => {
                pairs.push(left[i]);
                i += 1;
            }
            std::cmp::Ordering::Equal => {
                pairs.push((left[i].0, left[i].1.max(right[j].1)));
                i += 1;
                j += 1;
            }
            std::cmp::Ordering::Greater => {
                pairs.push(right[j]);
                j += 1;
            }
        }
    }
    pairs.extend_from_slice(&left[i..]);
    pairs.extend_from_slice(&right[j..]);
    pairs
}

fn main() {
    let items: u64 = std::env::args().nth(2).and_then(|n| n.parse().ok()).unwrap_or(64);
    let mut replica: Vec<Pair> = Vec::new();
    let mut seed = 1u64;
    for number in 1..=items / 64 {
        let mut piece: Vec<Pair> = Vec::with_capacity(64);
        for _ in 0..64 {
            seed = seed
                .wrapping_mul(6_364_136_223_846_793_005)
                .wrapping_add(1_442_695_040_888_963_407);
            let place = (seed >> 33) % 4_096;
            let place = ((place / 64) as u32, (place % 64) as u32);
            piece.push((place, (number, (seed >> 32) as u32)));
        }
        piece.sort();
        // Of one place the greatest pair stands last.
        let mut newest: Vec<Pair> = Vec::with_capacity(64);
        for pair in piece {
            match newest.last_mut() {
                Some(last) if last.0 == pair.0 => *last = pair,
                _ => newest.push(pair),
            }
        }
        replica = merged(&replica, &newest);
    }
    println!("places {}", replica.len());
}
