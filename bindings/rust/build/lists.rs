//! Writes the structs of lists, each twice: with vectors, and as C has it.
use crate::header::{Access, Form, Part, Struct};
use crate::raw::{comment, each};
use std::collections::BTreeMap;

/// What is counted where the header says how many entries a list needs, in the order of arguments.
const COUNTS: [(char, &str); 5] = [
    ('N', "components"),
    ('M', "connections"),
    ('H', "held"),
    ('E', "events"),
    ('C', "contracts"),
];

struct Known {
    access: Access,
    /// The counts by which its lists are allotted.
    counts: Vec<&'static str>,
}

/// The structs of lists so far.
#[derive(Default)]
pub struct Lists {
    known: BTreeMap<String, Known>,
    lent: String,
}

impl Lists {
    /// The struct with vectors; none where it has no lists.
    pub fn write(&mut self, given: &Struct) -> Option<String> {
        let access = self.access(given)?;
        let counts = self.counts(given);
        let text = self.with_vectors(given, access, &counts);
        self.lent += &self.lent_struct(given, access);
        self.known
            .insert(given.name.clone(), Known { access, counts });
        Some(text)
    }

    /// The name of what is laid out as in C.
    pub fn laid_out(&self, name: &str) -> String {
        match self.known.get(name) {
            Some(_) => format!("lent::{name}"),
            None => name.to_owned(),
        }
    }

    /// The structs as C has them.
    pub fn module(&self) -> String {
        format!(
            "/// The structs of lists as C has them: each list is the pointer and the length of a slice.\n\
             pub mod lent {{\n    pub use super::list::{{List, ListMut}};\n{}}}\n",
            self.lent
        )
    }

    /// Written if any of its lists is, and none where it has none.
    fn access(&self, given: &Struct) -> Option<Access> {
        let mut found = given.fields.iter().filter_map(|field| match field.form {
            Form::List(access) => Some(access),
            _ => self.known.get(&field.kind).map(|known| known.access),
        });
        let first = found.next()?;
        let written = [first]
            .into_iter()
            .chain(found)
            .any(|each| each == Access::Written);
        Some(if written {
            Access::Written
        } else {
            Access::Read
        })
    }

    fn counts(&self, given: &Struct) -> Vec<&'static str> {
        let named = |count: &&str| {
            given.fields.iter().any(|field| match &field.group {
                Some(group) => need(group).contains(*count),
                None => (self.known.get(&field.kind)).is_some_and(|it| it.counts.contains(count)),
            })
        };
        COUNTS
            .map(|(_, count)| count)
            .into_iter()
            .filter(named)
            .collect()
    }

    fn with_vectors(&self, given: &Struct, access: Access, counts: &[&str]) -> String {
        let name = &given.name;
        let fields = each(
            &given.fields,
            |Part {
                 name,
                 kind,
                 form,
                 group,
             }| {
                let kind = match form {
                    Form::List(_) => format!("Vec<{kind}>"),
                    _ => kind.clone(),
                };
                let about = group.clone().unwrap_or_else(|| format!("`{name}`"));
                format!("    /// {about}\n    pub {name}: {kind},\n")
            },
        );
        format!(
            "{}#[derive(Clone, Debug, Default, Eq, PartialEq)]\npub struct {name} {{\n{fields}}}\nimpl {name} {{\n{}{}{}}}\n",
            comment(&given.about, &format!("Sizhbanto{name}")),
            self.with_room(given, counts),
            resize(given),
            self.lend(given, access)
        )
    }

    fn with_room(&self, given: &Struct, counts: &[&str]) -> String {
        let arguments: Vec<_> = counts
            .iter()
            .map(|count| format!("{count}: usize"))
            .collect();
        let fields = each(
            &given.fields,
            |Part {
                 name, kind, group, ..
             }| {
                let room = match (group, self.known.get(kind)) {
                    (Some(group), _) => format!("vec![0; {}]", need(group)),
                    (None, Some(known)) => {
                        format!("{kind}::with_room({})", known.counts.join(", "))
                    }
                    (None, None) => "Default::default()".to_owned(),
                };
                format!("            {name}: {room},\n")
            },
        );
        format!(
            "    /// Lists of the lengths that a call needs, each entry 0.\n    \
             pub fn with_room({}) -> Self {{\n        Self {{\n{fields}        }}\n    }}\n",
            arguments.join(", ")
        )
    }

    fn lend(&self, given: &Struct, access: Access) -> String {
        let lent = match access {
            Access::Read => "&",
            Access::Written => "&mut ",
        };
        let fields = each(
            &given.fields,
            |Part {
                 name, kind, form, ..
             }| {
                let handed = match form {
                    Form::List(Access::Read) => format!("(&self.{name}[..]).into()"),
                    Form::List(Access::Written) => format!("(&mut self.{name}[..]).into()"),
                    _ if self.known.contains_key(kind) => format!("self.{name}.lend()"),
                    _ => format!("self.{name}"),
                };
                format!("            {name}: {handed},\n")
            },
        );
        let name = &given.name;
        format!(
            "    /// The lists as a call is lent them.\n    \
             pub fn lend({lent}self) -> lent::{name}<'_> {{\n        lent::{name} {{\n{fields}        }}\n    }}\n"
        )
    }

    fn lent_struct(&self, given: &Struct, access: Access) -> String {
        let name = &given.name;
        let copied = match access {
            Access::Read => "Clone, Copy, ",
            Access::Written => "",
        };
        let fields = each(
            &given.fields,
            |Part {
                 name, kind, form, ..
             }| {
                let kind = match form {
                    Form::List(Access::Read) => format!("List<'a, {kind}>"),
                    Form::List(Access::Written) => format!("ListMut<'a, {kind}>"),
                    _ if self.known.contains_key(kind) => format!("{kind}<'a>"),
                    _ => kind.clone(),
                };
                format!("        /// `{name}`\n        pub {name}: {kind},\n")
            },
        );
        format!(
            "    /// `Sizhbanto{name}`\n    #[repr(C)]\n    #[derive({copied}Debug, Default)]\n    \
             pub struct {name}<'a> {{\n{fields}    }}\n"
        )
    }
}

/// Of a struct whose lists all need the same, and which has nothing else.
fn resize(given: &Struct) -> String {
    let first = &given.fields[0].group;
    if first.is_none() || given.fields.iter().any(|field| field.group != *first) {
        return String::new();
    }
    let resized = each(&given.fields, |Part { name, .. }| {
        format!("        self.{name}.resize(entries, 0);\n")
    });
    format!(
        "    /// Makes every list so long, by zeros at the end.\n    \
         pub fn resize(&mut self, entries: usize) {{\n{resized}    }}\n"
    )
}

/// `list 7, paths: 2M + N` as `2 * connections + components`.
fn need(group: &str) -> String {
    let words = group.rsplit(": ").next().unwrap_or(group);
    let terms: Vec<_> = words.split(" + ").map(term).collect();
    terms.join(" + ")
}

fn term(words: &str) -> String {
    let counted = |(letter, count): (char, &str)| {
        let times = words.strip_suffix(letter)?;
        Some(match times {
            "" => count.to_owned(),
            _ => format!("{times} * {count}"),
        })
    };
    let found = COUNTS.into_iter().find_map(counted);
    found.unwrap_or_else(|| words.to_owned())
}
