//! The calls of a scene that write many lists, each with the number lists that it is lent to write:
//! the two parts, and the one call of both.
use std::fmt::Debug;

use generator::lists::SceneLists;
use generator::rng::Rng;
use library::analysis::{AnalyzeNumbers, analyze_scene};
use library::assessment::{AssessNumbers, assess_scene};
use library::description::{DescribeNumbers, describe_scene};
use library::lent;

use crate::document::Refusal;
use crate::lent::Lent;

/// A call of a scene, with the number lists that it is lent to write.
pub trait SceneCall: Sized {
    type Numbers: Copy + Debug + Eq;
    type Entries: Default;
    const NAME: &'static str;
    /// The output list of each number list.
    const LISTS: &'static [usize];

    /// Lists of such lengths, with random contents.
    fn lend(rng: &mut Rng, lengths: &[usize]) -> Self;
    /// The lists as they were lent.
    fn before(&self) -> Self;
    fn call(&mut self, scene: &SceneLists) -> Self::Numbers;
    /// Whether each list begins with its new entries, and all the rest is as it was.
    fn hold(&self, new: &Self::Entries) -> Result<(), String>;
    /// Whether all entries of all lists are those of others, and what is beside the lists too.
    fn same(&self, others: &Self) -> Result<(), String>;
    /// Under a refusal all other numbers are 0.
    fn refused(refusal: Refusal) -> Self::Numbers;
}

/// Declares a call by its number lists: for each the output list that it is a field of, and where it
/// is in the struct that the call is lent.
macro_rules! scene_call {
    ($call:ident($struct:ident, $lent:ident, $entries:ident) -> $numbers:ident {
        $($field:ident: $type:ty = $list:literal at $($at:ident).+,)*
    }) => {
        /// The entries that a call uses.
        #[derive(Clone, Debug, Default, Eq, PartialEq)]
        pub struct $entries {
            $(pub $field: Vec<$type>,)*
        }

        impl $entries {
            /// The first field in which two answers differ.
            pub fn same(&self, got: &Self) -> Result<(), String> {
                $(if self.$field != got.$field {
                    let (field, wanted, got) = (stringify!($field), &self.$field, &got.$field);
                    return Err(format!("{field}\n  wanted {wanted:?}\n  got    {got:?}"));
                })*
                Ok(())
            }
        }

        pub struct $lent {
            $(pub $field: Lent<$type>,)*
        }

        impl $lent {
            fn lists(&mut self) -> lent::$struct<'_> {
                let mut lists = lent::$struct::default();
                $(lists.$($at).+ = self.$field.part().into();)*
                lists
            }
        }

        impl SceneCall for $lent {
            type Numbers = $numbers;
            type Entries = $entries;
            const NAME: &'static str = concat!("sizhbanto_", stringify!($call));
            const LISTS: &'static [usize] = &[$($list),*];

            fn lend(rng: &mut Rng, lengths: &[usize]) -> Self {
                let mut lengths = lengths.iter();
                Self {
                    $($field: Lent::new(rng, *lengths.next().expect("one for each list")),)*
                }
            }

            fn before(&self) -> Self {
                Self {
                    $($field: self.$field.before(),)*
                }
            }

            fn call(&mut self, scene: &SceneLists) -> $numbers {
                $call(scene, &mut self.lists())
            }

            fn hold(&self, new: &$entries) -> Result<(), String> {
                $(self.$field.holds(stringify!($field), &new.$field)?;)*
                Ok(())
            }

            fn same(&self, others: &Self) -> Result<(), String> {
                $(self.$field.same(stringify!($field), &others.$field)?;)*
                Ok(())
            }

            fn refused((number, place): Refusal) -> $numbers {
                $numbers {
                    number,
                    place,
                    ..$numbers::default()
                }
            }
        }
    };
}

library::describe_lists!(
    scene_call!(describe_scene(DescriptionLists, DescribeLists, DescribeEntries) -> DescribeNumbers)
);
library::assess_lists!(
    scene_call!(assess_scene(AssessmentLists, AssessLists, AssessEntries) -> AssessNumbers)
);

/// The entries that the one call uses.
#[derive(Clone, Debug, Default, Eq, PartialEq)]
pub struct AnalyzeEntries {
    pub description: DescribeEntries,
    pub assessment: AssessEntries,
}

pub struct AnalyzeLists {
    pub description: DescribeLists,
    pub assessment: AssessLists,
}

const PARTS: [&[usize]; 2] = [DescribeLists::LISTS, AssessLists::LISTS];
const ALL: usize = PARTS[0].len() + PARTS[1].len();

/// Those of the first part, then those of the second.
const fn lists_of_both() -> [usize; ALL] {
    let mut lists = [0; ALL];
    let mut k = 0;
    while k < ALL {
        let first = PARTS[0].len();
        lists[k] = if k < first {
            PARTS[0][k]
        } else {
            PARTS[1][k - first]
        };
        k += 1;
    }
    lists
}

impl SceneCall for AnalyzeLists {
    type Numbers = AnalyzeNumbers;
    type Entries = AnalyzeEntries;
    const NAME: &'static str = "sizhbanto_analyze_scene";
    const LISTS: &'static [usize] = &lists_of_both();

    fn lend(rng: &mut Rng, lengths: &[usize]) -> Self {
        let (first, second) = lengths.split_at(DescribeLists::LISTS.len());
        Self {
            description: DescribeLists::lend(rng, first),
            assessment: AssessLists::lend(rng, second),
        }
    }

    fn before(&self) -> Self {
        Self {
            description: self.description.before(),
            assessment: self.assessment.before(),
        }
    }

    fn call(&mut self, scene: &SceneLists) -> AnalyzeNumbers {
        let mut lists = lent::SceneLists {
            description: self.description.lists(),
            assessment: self.assessment.lists(),
        };
        analyze_scene(scene, &mut lists)
    }

    fn hold(&self, new: &AnalyzeEntries) -> Result<(), String> {
        self.description.hold(&new.description)?;
        self.assessment.hold(&new.assessment)
    }

    fn same(&self, others: &Self) -> Result<(), String> {
        self.description.same(&others.description)?;
        self.assessment.same(&others.assessment)
    }

    fn refused((number, place): Refusal) -> AnalyzeNumbers {
        AnalyzeNumbers {
            number,
            place,
            ..AnalyzeNumbers::default()
        }
    }
}
