"""The calls of bindings/c/sizhbanto.h by ctypes: widths and the order of fields and lists are read from the header."""
import ctypes
import os
import re

import header

PATH = os.path.join(os.path.dirname(os.path.abspath(__file__)), "../../target/bindings/libsizhbanto.so")
TYPES = {"bool": ctypes.c_bool, "size_t": ctypes.c_size_t, "int32_t": ctypes.c_int32, "uint8_t": ctypes.c_uint8,
         "uint16_t": ctypes.c_uint16, "uint32_t": ctypes.c_uint32, "uint64_t": ctypes.c_uint64}
LISTS = (header.READ_LIST, header.WRITTEN_LIST)


class Library:
    """The shared library and what its header says of it."""

    def __init__(self, path=PATH):
        self.header, self.shared = header.read(), ctypes.CDLL(path)
        self.types = dict(TYPES)
        for name, fields in self.header.structs.items():
            rows = [row for field in fields for row in self.members(field)]
            self.types[name] = type(name, (ctypes.Structure,), {"_fields_": rows})
        for name, function in self.header.functions.items():
            foreign = getattr(self.shared, name)
            foreign.restype = self.types[function.result]
            foreign.argtypes = [own for parameter in function.parameters for _, own in self.members(parameter)]

    def members(self, part):
        """Name and type of what a field or a parameter is in C."""
        own = self.types[part.type]
        if part.form in LISTS:
            return [(part.name, ctypes.POINTER(own)), (part.name + "_length", ctypes.c_size_t)]
        if part.form == header.VALUE:
            return [(part.name, own * part.count if part.count else own)]
        return [(part.name, ctypes.POINTER(own))]

    def lend(self, struct, name, given):
        """Makes a list of a struct lead to a copy of these entries."""
        entries = getattr(struct, name)._type_ * len(given)
        setattr(struct, name, entries(*given))
        setattr(struct, name + "_length", len(given))

    def fill(self, struct, given):
        """Gives a struct what a map of its fields has: numbers, lists of them, and maps for the structs within."""
        for field in self.header.structs[type(struct).__name__]:
            value = given[field.name]
            if field.form in LISTS:
                self.lend(struct, field.name, value)
            elif isinstance(value, dict):
                self.fill(getattr(struct, field.name), value)
            else:
                setattr(struct, field.name, value)

    def make(self, name, given):
        """A struct for a call to read."""
        struct = self.types[name]()
        self.fill(struct, given)
        return struct

    def room(self, name, **sizes):
        """A struct for a call to write: each list as long as the header says, where N, M, E and H are these sizes."""
        struct = self.types[name]()
        for inner, field in self.lists(struct):
            self.lend(inner, field.name, [0] * needed(field.group, sizes))
        return struct

    def lists(self, struct):
        """Each list of a struct and of those within: the struct that has it, and its field."""
        for field in self.header.structs[type(struct).__name__]:
            if field.form in LISTS:
                yield struct, field
            elif field.type in self.header.structs:
                yield from self.lists(getattr(struct, field.name))

    def call(self, name, *given):
        """A call's answer. The length of a list of entries goes with it."""
        arguments = []
        for parameter, value in zip(self.header.functions[name].parameters, given, strict=True):
            if parameter.form == header.READ_LIST:
                value = (self.types[parameter.type] * len(value))(*value)
            arguments += [value, len(value)] if parameter.form in LISTS else [value]
        return getattr(self.shared, name)(*arguments)

    def names(self, enum):
        """The name of each code of an enum."""
        return {code: name.lower() for name, code in self.header.enums[enum].items()}


def needed(group, sizes):
    """How many entries `list 3, reasons: 2N + 1` needs."""
    terms = [re.fullmatch(r"(\d*)([A-Z]?)", term).groups() for term in group.split(": ")[1].split(" + ")]
    return sum(int(count or 1) * (sizes[size] if size else 1) for count, size in terms)
