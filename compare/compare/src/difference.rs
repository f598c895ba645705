//! A difference between two sides.
use std::fmt::Debug;

pub struct Difference {
    /// Between which sides: the same for differences of one sort.
    pub what: String,
    pub told: String,
}

impl Difference {
    pub fn new(what: &str, told: &str) -> Self {
        Self {
            what: what.to_owned(),
            told: told.to_owned(),
        }
    }
}

pub fn equal<T: PartialEq + Debug>(what: &str, wanted: &T, got: &T) -> Result<(), Difference> {
    if wanted == got {
        return Ok(());
    }
    let told = format!("wanted {wanted:?}\n  got    {got:?}");
    Err(Difference::new(what, &told))
}
