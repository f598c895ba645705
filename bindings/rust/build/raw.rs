//! Writes the declarations in Rust.
use crate::header::{Access, Enum, Form, Function, Item, Layout, Part, Struct};
use crate::lists::Lists;

pub fn write(items: &[Item]) -> String {
    let mut lists = Lists::default();
    let (mut text, mut tests) = (String::new(), String::new());
    for item in items {
        text += &match item {
            Item::Constant(name, number) => {
                format!("/// `SIZHBANTO_{name}`\npub const {name}: usize = {number};\n")
            }
            Item::Enum(each) => write_enum(each),
            Item::Struct(each) => lists.write(each).unwrap_or_else(|| write_struct(each)),
            Item::Function(each) => write_function(each),
            Item::Layout(each) => {
                tests += &write_test(each, &lists);
                continue;
            }
        };
    }
    text + &tests + &lists.module()
}

pub fn comment(about: &[String], name: &str) -> String {
    match about {
        [] => format!("/// `{name}`\n"),
        lines => lines.iter().map(|line| format!("/// {line}\n")).collect(),
    }
}

/// The text of a row for each, one behind the other.
pub fn each<T>(all: &[T], row: impl Fn(&T) -> String) -> String {
    all.iter().map(row).collect()
}

fn write_enum(given: &Enum) -> String {
    let name = &given.name;
    let values = each(&given.values, |(value, code)| {
        format!("    /// {code}\n    {value} = {code},\n")
    });
    let arms = each(&given.values, |(value, code)| {
        format!("            {code} => Some(Self::{value}),\n")
    });
    format!(
        "{}#[repr(u8)]\n#[derive(Clone, Copy, Debug, Eq, Hash, Ord, PartialEq, PartialOrd)]\n\
         pub enum {name} {{\n{values}}}\n\
         impl {name} {{\n    /// The value of a code, if it has one.\n    \
         pub const fn from_code(code: u8) -> Option<Self> {{\n        match code {{\n{arms}            \
         _ => None,\n        }}\n    }}\n    /// Its code.\n    \
         pub const fn code(self) -> u8 {{\n        self as u8\n    }}\n}}\n",
        comment(&given.about, name)
    )
}

fn write_struct(given: &Struct) -> String {
    let name = &given.name;
    let fields = each(&given.fields, |Part { name, kind, .. }| {
        format!("    /// `{name}`\n    pub {name}: {kind},\n")
    });
    format!(
        "{}#[repr(C)]\n#[derive(Clone, Copy, Debug, Default, Eq, PartialEq)]\npub struct {name} {{\n{fields}}}\n",
        comment(&given.about, name)
    )
}

/// C and Rust lay the struct out alike.
fn write_test(Layout { name, field, bytes }: &Layout, lists: &Lists) -> String {
    let name = lists.laid_out(name);
    let measured = match field {
        None => format!("size_of::<{name}>()"),
        Some(field) => format!("std::mem::offset_of!({name}, {field})"),
    };
    format!("const _: () = assert!({measured} == {bytes});\n")
}

/// The declaration of the call, and a function with the same name but its first word that is lent slices and structs.
fn write_function(given: &Function) -> String {
    let Function {
        name,
        result,
        parameters,
        about,
    } = given;
    let short = name.strip_prefix("sizhbanto_").expect("the name of a call");
    let declared = each(parameters, declaration);
    let passed = each(parameters, passed);
    let arguments: Vec<_> = parameters.iter().map(argument).collect();
    format!(
        "unsafe extern \"C\" {{\n    /// `{name}`\n    pub fn {name}(\n{declared}    ) -> {result};\n}}\n\
         {}pub fn {short}({}) -> {result} {{\n    \
         // every pointer and length is that of a list, and every other pointer that of a struct, that outlives\n    \
         // the call; nothing else refers to what is written\n    \
         unsafe {{\n        {name}(\n{passed}        )\n    }}\n}}\n",
        comment(about, name),
        arguments.join(", ")
    )
}

fn declaration(
    Part {
        name, kind, form, ..
    }: &Part,
) -> String {
    let pointer = |access| match access {
        Access::Read => "*const",
        Access::Written => "*mut",
    };
    let declared = match *form {
        Form::Value => format!("{name}: {kind}"),
        Form::List(access) => {
            format!("{name}: {} {kind}, {name}_length: usize", pointer(access))
        }
        Form::Lent(access) => format!("{name}: {} lent::{kind}<'_>", pointer(access)),
    };
    format!("        {declared},\n")
}

fn passed(Part { name, form, .. }: &Part) -> String {
    let passed = match form {
        Form::List(Access::Read) => format!("{name}.as_ptr(), {name}.len()"),
        Form::List(Access::Written) => format!("{name}.as_mut_ptr(), {name}.len()"),
        Form::Value | Form::Lent(_) => name.clone(),
    };
    format!("            {passed},\n")
}

fn argument(
    Part {
        name, kind, form, ..
    }: &Part,
) -> String {
    match form {
        Form::Value => format!("{name}: {kind}"),
        Form::List(Access::Read) => format!("{name}: &[{kind}]"),
        Form::List(Access::Written) => format!("{name}: &mut [{kind}]"),
        Form::Lent(Access::Read) => format!("{name}: &lent::{kind}<'_>"),
        Form::Lent(Access::Written) => format!("{name}: &mut lent::{kind}<'_>"),
    }
}
