//! Reads the header for C, whose lines have the forms that its top comment says, with Rust's types in
//! place of C's.
use std::iter::Enumerate;
use std::str::Lines;

pub enum Item {
    Constant(String, String),
    Enum(Enum),
    Struct(Struct),
    Function(Function),
    Layout(Layout),
}

/// `about` is the comment right before the item, a line each.
pub struct Enum {
    pub about: Vec<String>,
    pub name: String,
    pub values: Vec<(String, String)>,
}

pub struct Struct {
    pub about: Vec<String>,
    pub name: String,
    pub fields: Vec<Part>,
}

pub struct Function {
    pub about: Vec<String>,
    pub result: String,
    pub name: String,
    pub parameters: Vec<Part>,
}

/// A struct's size, or where in it a field begins, in bytes.
pub struct Layout {
    pub name: String,
    pub field: Option<String>,
    pub bytes: String,
}

#[derive(Clone, Copy, Eq, PartialEq)]
pub enum Access {
    Read,
    Written,
}

#[derive(Clone, Copy, Eq, PartialEq)]
pub enum Form {
    Value,
    /// By a pointer and a length.
    List(Access),
    /// By a pointer to a struct of lists.
    Lent(Access),
}

/// A field of a struct or a parameter of a function.
pub struct Part {
    pub name: String,
    pub kind: String,
    pub form: Form,
    /// What the comment above a list says of it and of those that follow.
    pub group: Option<String>,
}

type Numbered<'a> = Enumerate<Lines<'a>>;

/// Lines that are for the compiler of C alone.
fn is_frame(line: &str) -> bool {
    ["", "extern \"C\" {", "}"].contains(&line) || line.starts_with('#') && constant(line).is_none()
}

pub fn read(text: &str) -> Result<Vec<Item>, String> {
    let mut lines = text.lines().enumerate();
    let (mut items, mut about) = (Vec::new(), Vec::new());
    while let Some((at, line)) = lines.next() {
        if let Some(words) = line.strip_prefix("//") {
            about.push(words.trim_start().to_owned());
            continue;
        }
        let above = std::mem::take(&mut about);
        if !is_frame(line) {
            let item = item(line, above, &mut lines);
            items.push(item.ok_or_else(|| format!("line {} begins nothing in its form", at + 1))?);
        }
    }
    Ok(items)
}

fn item(line: &str, about: Vec<String>, lines: &mut Numbered) -> Option<Item> {
    if let Some((name, number)) = constant(line) {
        return Some(Item::Constant(name.to_owned(), number.to_owned()));
    }
    if let Some(words) = between(line, "SIZHBANTO_", ")") {
        return layout(words).map(Item::Layout);
    }
    if let Some(name) = between(line, "enum Sizhbanto", " {") {
        let values = rows(lines, "};", |line| enum_value(line, name))?;
        let name = name.to_owned();
        return Some(Item::Enum(Enum {
            about,
            name,
            values,
        }));
    }
    if let Some(name) = between(line, "typedef struct Sizhbanto", " {") {
        let fields = parts(lines, &format!("}} Sizhbanto{name};"), field)?;
        let name = name.to_owned();
        return Some(Item::Struct(Struct {
            about,
            name,
            fields,
        }));
    }
    let (result, name) = line.strip_suffix('(')?.split_once(' ')?;
    Some(Item::Function(Function {
        about,
        result: rust_type(result)?,
        name: name.to_owned(),
        parameters: parts(lines, ");", parameter)?,
    }))
}

/// `#define SIZHBANTO_MAX_TRACES 64` as `MAX_TRACES` and 64.
fn constant(line: &str) -> Option<(&str, &str)> {
    let words = line.strip_prefix("#define SIZHBANTO_")?.split_once(' ')?;
    words.1.parse::<u64>().is_ok().then_some(words)
}

/// `SIZE(SizhbantoScene, 160` or `OFFSET(SizhbantoScene, connections, 112`.
fn layout(words: &str) -> Option<Layout> {
    let (what, words) = words.split_once("(Sizhbanto")?;
    let words: Vec<_> = words.split(", ").map(str::to_owned).collect();
    let (name, field, bytes) = match (what, &words[..]) {
        ("SIZE", [name, bytes]) => (name, None, bytes),
        ("OFFSET", [name, field, bytes]) => (name, Some(field.clone()), bytes),
        _ => return None,
    };
    let (name, bytes) = (name.clone(), bytes.clone());
    Some(Layout { name, field, bytes })
}

fn between<'a>(line: &'a str, before: &str, after: &str) -> Option<&'a str> {
    line.strip_prefix(before)?.strip_suffix(after)
}

/// What is read off the lines up to the last one.
fn rows<T>(lines: &mut Numbered, last: &str, row: impl Fn(&str) -> Option<T>) -> Option<Vec<T>> {
    lines
        .map(|(_, line)| line)
        .take_while(|line| *line != last)
        .map(row)
        .collect()
}

/// `SIZHBANTO_BLOCK_KIND_PRESSURE_PLATE = 5,` as `PressurePlate` and 5.
fn enum_value(line: &str, name: &str) -> Option<(String, String)> {
    let (words, number) = between(line, "    SIZHBANTO_", ",")?.split_once(" = ")?;
    let value = camel(words).strip_prefix(name)?.to_owned();
    Some((value, number.to_owned()))
}

/// `PRESSURE_PLATE` or `pressure plate` as `PressurePlate`.
pub fn camel(words: &str) -> String {
    let mut name = String::new();
    for word in words.split(['_', ' ']) {
        let (first, rest) = word.split_at(word.len().min(1));
        name += &first.to_uppercase();
        name += &rest.to_lowercase();
    }
    name
}

/// What stands on the lines up to the last one, each list with the comment above it.
fn parts(lines: &mut Numbered, last: &str, part: fn(&str) -> Option<Part>) -> Option<Vec<Part>> {
    let (mut found, mut group) = (Vec::new(), None);
    for (_, line) in lines {
        if line == last {
            return Some(found);
        }
        match line.strip_prefix("    // ") {
            Some(words) => group = Some(words.to_owned()),
            None => {
                let part = part(line)?;
                group = group.filter(|_| matches!(part.form, Form::List(_)));
                found.push(Part {
                    group: group.clone(),
                    ..part
                });
            }
        }
    }
    None
}

/// `type name;` or `type name[count];`, or a list.
fn field(line: &str) -> Option<Part> {
    let words = between(line, "    ", ";")?;
    if let Some((words, length)) = words.split_once("; size_t ") {
        return list(words, length);
    }
    let (kind, name) = words.split_once(' ')?;
    let kind = rust_type(kind)?;
    Some(match name.split_once('[') {
        None => value(name, kind),
        Some((name, count)) => value(name, format!("[{kind}; {count}")),
    })
}

/// `type name`, a list, or a struct of lists by its pointer.
fn parameter(line: &str) -> Option<Part> {
    let words = line.strip_prefix("    ")?.trim_end_matches(',');
    if let Some((words, length)) = words.split_once(", size_t ") {
        return list(words, length);
    }
    if words.contains('*') {
        let (access, kind, name) = pointer(words)?;
        let kind = kind.strip_prefix("Sizhbanto")?.to_owned();
        let form = Form::Lent(access);
        return Some(Part {
            form,
            ..value(name, kind)
        });
    }
    let (kind, name) = words.split_once(' ')?;
    Some(value(name, rust_type(kind)?))
}

fn value(name: &str, kind: String) -> Part {
    Part {
        name: name.to_owned(),
        kind,
        form: Form::Value,
        group: None,
    }
}

/// `const type *name` and `name_length`.
fn list(words: &str, length: &str) -> Option<Part> {
    let (access, kind, name) = pointer(words)?;
    let form = Form::List(access);
    let kind = rust_type(kind)?;
    (length.strip_suffix("_length") == Some(name)).then(|| Part {
        form,
        ..value(name, kind)
    })
}

fn pointer(words: &str) -> Option<(Access, &str, &str)> {
    let (access, words) = match words.strip_prefix("const ") {
        Some(words) => (Access::Read, words),
        None => (Access::Written, words),
    };
    let (kind, name) = words.split_once(" *")?;
    Some((access, kind, name))
}

fn rust_type(name: &str) -> Option<String> {
    let kind = match name {
        "bool" => "bool",
        "size_t" => "usize",
        "uint8_t" => "u8",
        "uint16_t" => "u16",
        "uint32_t" => "u32",
        "uint64_t" => "u64",
        "int32_t" => "i32",
        _ => name.strip_prefix("Sizhbanto")?,
    };
    Some(kind.to_owned())
}
