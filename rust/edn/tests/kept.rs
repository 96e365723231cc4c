//! Inputs worth keeping: any that library and model ever answered differently, as the tests print them.
mod both;
mod model;

use both::{same, Case};

/// The rulings' lines that are easiest to get wrong; that both are right is in vectors.rs.
#[test]
fn indicator_on_a_stray_close() {
    for text in ["<<1,>>_x", "1>>_1", "<<1>>_", "<<1>>_x", ">>_i"] {
        same(Case::Read { text: text.as_bytes().to_vec(), room: 9, values: 1 });
    }
}
