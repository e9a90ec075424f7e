//! A call on hostile shapes.
use corpus::generate::hostile::{SHAPES, Shape};

use crate::asked::Asked;
use crate::judged::{Judged, Reports};

/// Asks about each shape, small and larger.
pub(crate) fn ask_all<J: Judged>(asked: &mut Asked<J>, shapes: &[Shape]) {
    for (name, shape) in shapes {
        for n in [1, 200] {
            let accepted = asked.ask_closely(&shape(n).bytes());
            assert!(accepted, "{name}, {n}");
        }
    }
    println!("{} corpora, {} calls", asked.corpora, asked.caller.calls);
}

#[test]
fn hostile_shapes() {
    ask_all(&mut Asked::<Reports>::new(6), &SHAPES);
}
