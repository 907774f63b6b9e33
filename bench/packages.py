"""WIT packages in binary form, for the scripts here: that of a record whose functions take texts and named types, and whose types are records
of texts and resources."""
from modules import section, text
from timing import number

COMPONENT = b"\0asm\x0d\0\1\0"
STRING, NO_RESULT = b"\x73", b"\1\0"
FUNCTION, RECORD, COMPONENT_TYPE, INSTANCE_TYPE = b"\x40", b"\x72", b"\x41", b"\x42"
TYPE, ALIAS, IMPORT, EXPORT = b"\1", b"\2", b"\3\0", b"\4\0"
AS_FUNCTION, AS_EQUAL, AS_RESOURCE, AS_COMPONENT, AS_INSTANCE = b"\1", b"\3\0", b"\3\1", b"\4", b"\5"


def listed(items):
    return number(len(items)) + b"".join(items)


class Scope:
    """The declarations of a type of a component or of instances, and the indices of the types that have names there."""

    def __init__(self):
        self.lines, self.count, self.named = [], 0, {}

    def typed(self, line):
        """Adds a declaration that makes a type, and answers its index."""
        self.lines.append(line)
        self.count += 1
        return self.count - 1

    def function(self, form, function, value):
        """Adds a function, of which `value` gives the types of its parameters."""
        params = listed([text(name) + value(it) for name, it in function.get("params", [])])
        index = self.typed(TYPE + FUNCTION + params + NO_RESULT)
        self.lines.append(form + text(function["name"]) + AS_FUNCTION + number(index))


class World:
    """The type of a record's world."""

    def __init__(self, record):
        self.interfaces, self.root, self.instances = record.get("interfaces", []), Scope(), {}
        for side, form in ("imports", IMPORT), ("exports", EXPORT):
            for item in record.get(side, []):
                self.item(form, item)

    def item(self, form, item):
        if "func" in item:
            self.root.function(form, item["func"], lambda it: STRING)
            return
        interface = item["interface"]
        index = self.root.typed(TYPE + INSTANCE_TYPE + listed(self.instance(interface)))
        self.root.lines.append(form + text(self.interfaces[interface]["id"]) + AS_INSTANCE + number(index))
        self.instances[interface] = len(self.instances)

    def instance(self, interface):
        """The declarations of an interface's type."""
        scope, described = Scope(), self.interfaces[interface]
        for it in described["types"]:
            if "resource" in it["type"]:
                scope.named[interface, it["name"]] = scope.typed(EXPORT + text(it["name"]) + AS_RESOURCE)
            else:
                fields = listed([text(name) + STRING for name, _ in it["type"]["record"]])
                index = scope.typed(TYPE + RECORD + fields)
                scope.named[interface, it["name"]] = scope.typed(EXPORT + text(it["name"]) + AS_EQUAL + number(index))
        for it in described["functions"]:
            scope.function(EXPORT, it, lambda it: STRING if it == "string" else self.used(scope, *it["ref"]))
        return scope.lines

    def used(self, scope, interface, name):
        """A named type in the scope of an interface, there by aliases where it is another one's."""
        named = interface, name
        if named not in scope.named:
            if named not in self.root.named:
                self.root.named[named] = self.root.typed(ALIAS + b"\3\0" + number(self.instances[interface]) + text(name))
            scope.named[named] = scope.typed(ALIAS + b"\3\2\1" + number(self.root.named[named]))
        return signed(scope.named[named])


def signed(index):
    """An index as a type of a value, which is a signed number of the binary format."""
    out = b""
    while index >= 64:
        out += bytes([index % 128 + 128])
        index //= 128
    return out + bytes([index])


def with_package(core, record):
    """A core module with the package of a record's world."""
    world = COMPONENT_TYPE + listed(World(record).root.lines)
    outer = COMPONENT_TYPE + listed([TYPE + world, EXPORT + text("a:b/w") + AS_COMPONENT + number(0)])
    package = COMPONENT + section(0, text("wit-component-encoding") + b"\4\0") + section(7, listed([outer]))
    package += section(11, listed([b"\0" + text("w") + b"\3\0\0"]))
    return core + section(0, text("component-type") + package)
