use tsendurkho::{Rack, Refusal, Shape};

/// A rack of these numbers, as the generators draw them.
pub fn rack(n: u32, f: u32, c: u32) -> Result<Rack, Refusal> {
    Rack::new(Shape {
        cards: n,
        broken: f,
        modulus: c,
    })
}
