//! List 9 as it is lent: twelve number lists.
use generator::rng::Rng;
use library::lent::Findings;
use library::traces::FINDING_LISTS;
use plain::trace::Finding;

use crate::lent::Lent;

/// The lengths of the number lists.
pub type Lengths = [usize; FINDING_LISTS];

macro_rules! finding_lists {
    ({ $($field:ident: $type:ty = $entry:ident,)* }) => {
        pub struct FindingLists {
            $($field: Lent<$type>,)*
        }

        impl FindingLists {
            /// Lists of such lengths, with random contents.
            pub fn lend(rng: &mut Rng, lengths: &Lengths) -> Self {
                let mut lengths = lengths.iter();
                Self {
                    $($field: Lent::new(rng, *lengths.next().expect("one for each list")),)*
                }
            }

            /// As a call is lent them.
            pub fn lists(&mut self) -> Findings<'_> {
                Findings { $($field: self.$field.part().into(),)* }
            }

            /// Whether these findings are in the lists from `start` on, and all the rest is as it
            /// was.
            pub fn hold(&self, start: usize, new: &[Finding]) -> Result<(), String> {
                $(
                    let entries: Vec<$type> = new.iter().map(|finding| finding.$entry).collect();
                    self.$field.holds_from(stringify!($field), start, &entries)?;
                )*
                Ok(())
            }
        }
    };
}

library::finding_lists!(finding_lists!());
