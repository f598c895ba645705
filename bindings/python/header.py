"""Reads bindings/c/sizhbanto.h, whose lines have the forms that its top comment says."""
import os
import re
from collections import namedtuple

PATH = os.path.join(os.path.dirname(os.path.abspath(__file__)), "../c/sizhbanto.h")

# constants and enums map names to numbers, structs to their fields, functions to their result and parameters; layout
# has a triple for each of its lines: struct, field or None, bytes
Header = namedtuple("Header", "constants enums structs functions layout")
# a struct's field or a function's parameter. form is what it is: a value, a list or a pointer to a struct of lists.
# count is that of an array, else None; group has a list's `// name: entries`, else None
Part = namedtuple("Part", "name type form count group")
Function = namedtuple("Function", "result parameters")

VALUE, READ_LIST, WRITTEN_LIST, READ_STRUCT, WRITTEN_STRUCT = (
    "value", "list that is read", "list that is written", "struct that is read", "struct that is written")

COMMENT = re.compile(r" *//(?: ?(.*))?")
FRAME = re.compile(r'#(?!define SIZHBANTO_\w+ ).*|extern "C" \{|\}|')
CONSTANT = re.compile(r"#define SIZHBANTO_(\w+) (\d+)")
LAYOUT = re.compile(r"SIZHBANTO_(?:SIZE\((\w+)|OFFSET\((\w+), (\w+)), (\d+)\)")
ENUM = re.compile(r"enum Sizhbanto(\w+) \{")
ENUM_VALUE = re.compile(r"    SIZHBANTO_(\w+) = (\d+),")
STRUCT = re.compile(r"typedef struct (Sizhbanto\w+) \{")
FUNCTION = re.compile(r"(\w+) (sizhbanto_\w+)\(")
# of a line without its last sign
PARTS = {
    VALUE: re.compile(r"    (?P<type>\w+) (?P<name>\w+)(?:\[(?P<count>\d+)\])?"),
    READ_LIST: re.compile(r"    const (?P<type>\w+) \*(?P<name>\w+)[,;] size_t (?P=name)_length"),
    WRITTEN_LIST: re.compile(r"    (?P<type>\w+) \*(?P<name>\w+)[,;] size_t (?P=name)_length"),
    READ_STRUCT: re.compile(r"    const (?P<type>Sizhbanto\w+) \*(?P<name>\w+)"),
    WRITTEN_STRUCT: re.compile(r"    (?P<type>Sizhbanto\w+) \*(?P<name>\w+)"),
}


class NotInForm(Exception):
    """A line that has none of the forms."""


def upper(name):
    """BlockKind as BLOCK_KIND."""
    return re.sub(r"(?<=.)([A-Z])", r"_\1", name).upper()


def read(path=PATH):
    with open(path, encoding="ascii") as file:
        return parse(file.read())


def parse(text):
    header = Header({}, {}, {}, {}, [])
    lines = enumerate(text.splitlines(), 1)
    for at, line in lines:
        if found := CONSTANT.fullmatch(line):
            add(header.constants, found[1], int(found[2]), at)
        elif COMMENT.fullmatch(line) or FRAME.fullmatch(line):
            continue
        elif found := LAYOUT.fullmatch(line):
            header.layout.append((found[1] or found[2], found[3], int(found[4])))
        elif found := ENUM.fullmatch(line):
            add(header.enums, found[1], values(upper(found[1]), lines), at)
        elif found := STRUCT.fullmatch(line):
            add(header.structs, found[1], fields(found[1], lines), at)
        elif found := FUNCTION.fullmatch(line):
            add(header.functions, found[2], Function(found[1], parameters(lines)), at)
        else:
            raise NotInForm(f"line {at} of the header has none of its forms: {line}")
    return header


def add(names, name, meaning, at):
    if name in names:
        raise NotInForm(f"line {at} of the header declares {name} again")
    names[name] = meaning


def values(prefix, lines):
    found = {}
    for at, line in lines:
        if line == "};":
            return found
        value = ENUM_VALUE.fullmatch(line)
        if not value or not value[1].startswith(prefix + "_"):
            raise NotInForm(f"line {at} of the header is no value of its enum: {line}")
        add(found, value[1][len(prefix) + 1:], int(value[2]), at)
    raise NotInForm("the header ends within an enum")


def part(line, forms, group):
    """What a line declares in one of the forms, or None."""
    for form in forms:
        if found := PARTS[form].fullmatch(line):
            count = found.groupdict().get("count")
            listed = form in (READ_LIST, WRITTEN_LIST)
            return Part(found["name"], found["type"], form, int(count) if count else None, group if listed else None)
    return None


def fields(name, lines):
    found, group = [], None
    for at, line in lines:
        if line == f"}} {name};":
            return found
        if comment := COMMENT.fullmatch(line):
            group = comment[1]
            continue
        field = part(line[:-1], (VALUE, READ_LIST, WRITTEN_LIST), group)
        if not field or line[-1] != ";" or "," in line:
            raise NotInForm(f"line {at} of the header is no field: {line}")
        group = field.group
        found.append(field)
    raise NotInForm("the header ends within a struct")


def parameters(lines):
    found, group, more = [], None, True
    for at, line in lines:
        if line == ");" and not more:
            return found
        if comment := COMMENT.fullmatch(line):
            group = comment[1]
            continue
        parameter = part(line.removesuffix(","), PARTS, group)
        if not parameter or not more or parameter.count or ";" in line:
            raise NotInForm(f"line {at} of the header is no parameter: {line}")
        group, more = parameter.group, line.endswith(",")
        found.append(parameter)
    raise NotInForm("the header ends within a function")
