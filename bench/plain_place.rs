// What `bench/place` times beside the layer: the same copying by a loop over two plain vectors of
// words, with no header, number or forward word looked at. Prints how many fields were copied.

fn main() {
    let words: usize = std::env::args().nth(1).and_then(|text| text.parse().ok()).unwrap_or(64);
    let from: Vec<u64> = (0..words as u64).collect();
    let mut to: Vec<u64> = Vec::with_capacity(words);
    for object in from.chunks_exact(10) {
        to.push(object[0]);
        to.push(object[1]);
        for field in &object[2..] {
            to.push(std::hint::black_box(*field));
        }
    }
    println!("items {}", to.len() / 10 * 8);
}
