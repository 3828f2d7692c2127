//! The proved archive as the program that the cards run.

use generate::Shape;
use simulate::counter::Counter;
use tsendurkho::Rack;

pub const ARCHIVE: Counter = Counter {
    step: |shape, card, heard| {
        let rack = rack(shape);
        let card = rack.card(card as u32).expect("the card is one of the rack");
        rack.step(card, heard).expect("a table is within the rules")
    },
    lag: |shape, one, other| {
        let lag = rack(shape).lag(one, other);
        lag.expect("counts are below the modulus")
    },
};

fn rack(Shape { n, f, c }: Shape) -> Rack {
    let shape = tsendurkho::Shape {
        cards: n,
        broken: f,
        modulus: c,
    };
    Rack::new(shape).expect("a shape is within the limits")
}
