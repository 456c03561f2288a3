"""Random units of documents that run, for tools/check_scenes: items in items with bindings, handlers and methods.

Without geometry a unit has what ran before anchors did: each expression reads objects above and before its own alone,
so nothing is in a loop, and places and sizes stay small. With geometry all slots of Item and Rectangle are given and
written, anything reads anything, targets of anchors may be unlawful, and some numbers are as large as there are.
"""

TYPES = ["Rectangle"] * 5 + ["Item"] * 3 + ["A", "B"]
GEOMETRY = ["x", "y", "width", "height"]
COLORS = ["red", "lime", "blue", "gold", "gray", "teal", "tomato", "black", "#0f8", "#336699", "steelblue"]
CLEAR_COLORS = ["#80ff0000", "#400000ff", "#01ffffff", "#fe123456", "transparent", "#7f00ff00", "#c0102030"]
ACROSS, DOWN = ("left", "right", "horizontalCenter"), ("top", "bottom", "verticalCenter")
MARGINS = ["margins", "leftMargin", "rightMargin", "topMargin", "bottomMargin"]
MARGINS += ["horizontalCenterOffset", "verticalCenterOffset"]
EXTENT = [f"childrenRect.{slot}" for slot in GEOMETRY]
HUGE = ["2147483647", "2147483640", "(-2147483647 - 1)", "-2147483640", "1073741824", "-1073741825"]


class Thing:
    """An object of a document: its name there, what stands above it, the property whose value it is, its numbers."""

    def __init__(self, name, type_name, above, kept_as=None):
        self.name, self.type, self.above, self.children = name, type_name, above, []
        self.kept_as = kept_as
        self.numbers = GEOMETRY + (["level"] if type_name in ("A", "B") else [])


class Scene:
    """Writes the documents of one unit from a `random.Random`, with geometry or without."""

    def __init__(self, source, geometry):
        self.source, self.geometry = source, geometry
        self.things = []
        # Of a scene with geometry: does anything read anything, are flags given, are numbers huge, do anchors stray?
        self.is_tangled, self.is_hidden, self.is_huge, self.strays = (
            geometry and self.chance(share) for share in (0.5, 0.4, 0.25, 0.5)
        )

    def pick(self, choices):
        return self.source.choice(choices)

    def chance(self, share):
        return self.source.random() < share

    def documents(self):
        """The texts by the names of files."""
        found = {f"{name}.qml": self.document(name, self.source.randint(1, 3)) for name in "BA"}
        return found | {"Main.qml": self.document("Main", self.source.randint(3, 11))}

    def document(self, name, count):
        types, is_type = ["Item", "Rectangle", "Rectangle"], name != "Main"
        self.things = [Thing("top", self.pick(types), None)]
        for number in range(count - 1):
            above = self.pick(self.things[-3:] if self.chance(0.5) else self.things)
            kept_as = f"{name.lower()}{number}" if self.chance(0.05) else None
            thing = Thing(f"o{number}", self.pick(types if is_type else TYPES), above, kept_as)
            above.children.append(thing)
            self.things.append(thing)
        self.has_level = is_type
        return "\n".join(self.object(self.things[0], "")) + "\n"

    # ---- objects, line by line
    def object(self, thing, indent):
        yield f"{indent}{f'property Item {thing.kept_as}: ' if thing.kept_as else ''}{thing.type} {{"
        for line in self.members(thing):
            yield f"{indent}    {line}"
        for child in thing.children:
            yield from self.object(child, indent + "    ")
        if thing is self.things[0]:
            yield from self.last(indent + "    ")
        yield f"{indent}}}"

    def last(self, indent):
        """An object that notes, when all others are complete, what they show."""
        yield f"{indent}Item {{"
        yield f"{indent}    Component.onCompleted: {{"
        for thing in self.things:
            shown = [f"{thing.name}.{slot}" for slot in GEOMETRY + (["visible"] + EXTENT if self.geometry else [])]
            yield f"{indent}        console.log(\"{thing.name}\", {', '.join(shown)})"
        yield f"{indent}    }}"
        yield f"{indent}}}"

    def members(self, thing):
        yield f"id: {thing.name}"
        if thing is self.things[0]:
            if self.has_level:
                thing.numbers = GEOMETRY + ["level"]
                yield f"property int level: {self.source.randint(0, 40)}"
            yield "function f(v) { return v * 2 % 31 }"
            yield "property bool on: true"
        for slot in GEOMETRY:
            if self.chance(0.65 if slot in ("x", "y") else 0.85):
                yield f"{slot}: {self.size(thing, slot)}"
        if thing.type == "Rectangle":
            yield f"color: {self.color(thing)}"
        if self.geometry:
            yield from self.geometry_members(thing)
        yield from self.handlers(thing)

    def geometry_members(self, thing):
        given = {"z": 0.25, "clip": 0.15, "implicitWidth": 0.2, "implicitHeight": 0.2}
        if self.is_hidden:
            given |= {"visible": 0.5 if self.is_tangled else 0.2, "enabled": 0.1}
        if thing.type == "Rectangle":
            given |= {"border.width": 0.2, "border.color": 0.15}
        for slot, share in given.items():
            if self.chance(share):
                yield f"{slot}: {self.given(thing, slot)}"
        if self.chance(0.55):
            for anchor in self.anchors():
                yield f"anchors.{anchor}: {self.tie(thing, anchor)}"
            for margin in self.source.sample(MARGINS, self.source.choice([0, 0, 1, 1, 2, 3])):
                yield f"anchors.{margin}: {self.margin(thing)}"

    def anchors(self):
        """The anchors of an item: those of one axis or both, and now and then of an item as a whole."""
        found = []
        for lines in (ACROSS, DOWN):
            found += self.source.sample(lines, self.pick([0, 0, 1, 1, 1, 2, 2, 3]))
        return found + self.pick([[]] * 5 + [["fill"], ["centerIn"], ["fill", "centerIn"]])

    def handlers(self, thing):
        for path in ["Component.onCompleted", "onXChanged", "onWidthChanged", "onVisibleChanged", "onHeightChanged"]:
            if path == "onVisibleChanged" and not self.geometry:
                continue
            if self.chance(0.3 if path[0] == "C" else 0.08):
                yield f"{path}: {{"
                for _ in range(self.source.randint(1, 4)):
                    yield f"    {self.statement(thing)}"
                yield "}"

    # ---- statements
    def statement(self, thing):
        other = self.pick(self.things)
        form = self.source.randrange(9)
        if form == 0:
            return f'console.log("{thing.name}", {self.number(thing, 1)}, {self.condition(thing)})'
        if form == 1:
            return f"if ({self.condition(thing)}) {self.write(thing, other)}"
        if form == 2:
            return f"for (var i = 0; i < {self.source.randint(1, 3)}; i++) {self.write(thing, other)}"
        if form == 3:
            return f"on = {self.condition(thing)}"
        return self.write(thing, other)

    def write(self, thing, other):
        slots = GEOMETRY * 2 + (["color"] if other.type == "Rectangle" else [])
        if self.geometry:
            slots += ["z", "clip", "visible", "enabled", "implicitWidth", "implicitHeight"]
            slots += ["border.width", "border.color"] if other.type == "Rectangle" else []
            slots += [f"anchors.{self.pick([*ACROSS, *DOWN, 'fill', 'centerIn'])}" for _ in range(5)]
            slots += [f"anchors.{self.pick(MARGINS)}" for _ in range(2)]
        slot = self.pick(slots)
        if slot in GEOMETRY and self.chance(0.3):
            return f"{other.name}.{slot} {self.pick(['+=', '-='])} {self.source.randint(1, 9)}"
        return f"{other.name}.{slot} = {self.given(other, slot)}"

    # ---- values
    def given(self, thing, slot):
        """An expression for a slot of a thing."""
        anchor = slot.removeprefix("anchors.")
        if slot in GEOMETRY:
            return self.size(thing, slot)
        if anchor != slot:
            return self.margin(thing) if anchor in MARGINS else self.tie(thing, anchor)
        if slot in ("color", "border.color"):
            return self.color(thing)
        if slot in ("clip", "visible", "enabled"):
            below = thing.children if self.is_tangled else []
            other = self.pick(below or self.readable(thing) or [thing])
            return self.pick(["true", "false", "false", self.condition(thing), f"{other.name}.{slot}"])
        if slot == "border.width":
            return str(self.source.randint(-1, 6))
        return self.pick([str(self.source.randint(-3, 3)), f"{self.number(thing, 1)} % 4"])

    def size(self, thing, slot):
        if self.is_huge and self.chance(0.1):
            return self.pick(HUGE)
        plain = str(self.source.randint(-9, 60) if slot in ("x", "y") else self.source.randint(0, 200))
        small = f"({self.number(thing, 2)}) % {self.source.randint(20, 300)}"
        return self.pick([plain, plain, small if self.chance(0.9) or not self.is_huge else self.number(thing, 1)])

    def margin(self, thing):
        tangled = f"{thing.name}.{self.pick(thing.numbers)} % 9" if self.is_tangled else "3"
        return self.pick([str(self.source.randint(-5, 12))] * 4 + [f"{self.number(thing, 1)} % 9", tangled])

    def tie(self, thing, anchor):
        """A target for an anchor, mostly a lawful one."""
        if self.chance(0.06):
            return "null" if anchor in ("fill", "centerIn") else "undefined"
        siblings = [other for other in (thing.above.children if thing.above else []) if other is not thing]
        near = ["parent"] * 3 + [other.name for other in siblings] * 2
        if thing is self.things[0] and self.chance(0.8):
            near = ["parent"]
        target = self.pick([other.name for other in self.things] if self.strays and self.chance(0.25) else near)
        if anchor in ("fill", "centerIn"):
            return target
        lines = ACROSS if anchor in ACROSS else DOWN
        if self.strays and self.chance(0.08):
            lines = ACROSS + DOWN
        line = f"{target}.{self.pick(lines)}"
        if self.is_tangled and self.chance(0.15):
            return f"{thing.name}.{self.pick(GEOMETRY)} > {self.source.randint(-5, 40)} ? {line} : undefined"
        return f"{self.condition(thing)} ? {line} : undefined" if self.chance(0.06) else line

    def color(self, thing):
        colors = COLORS + (CLEAR_COLORS * 2 + ["no colour"] if self.geometry and self.chance(0.6) else [])
        first = f'"{self.pick(colors)}"'
        return f'{self.condition(thing)} ? {first} : "{self.pick(COLORS)}"' if self.chance(0.3) else first

    def readable(self, thing):
        """The things that an expression of this one may read: those above and before it, or all."""
        return self.things if self.is_tangled else self.things[: self.things.index(thing)]

    def read(self, thing):
        others = self.readable(thing)
        if not others:
            return str(self.source.randint(1, 50))
        other = self.pick(others)
        slots = other.numbers * 4 + (EXTENT + ["z", "implicitWidth", "anchors.margins"] if self.is_tangled else [])
        return f"{other.name}.{self.pick(slots)}"

    def number(self, thing, room):
        form = self.source.randrange(10) if room > 0 else self.source.randrange(3)
        if form == 0:
            return str(self.source.randint(0, 60))
        if form <= 3:
            return self.read(thing)
        if form == 4:
            return f"f({self.number(thing, room - 1)})"
        if form == 5:
            return f"Math.{self.pick(['min', 'max'])}({self.number(thing, room - 1)}, {self.number(thing, room - 1)})"
        if form == 6:
            return f"({self.condition(thing)} ? {self.number(thing, room - 1)} : {self.number(thing, room - 1)})"
        operator = self.pick(["+", "-", "+", "-", "*", "/", "%"])
        return f"({self.number(thing, room - 1)} {operator} {self.number(thing, room - 1)})"

    def condition(self, thing):
        form = self.source.randrange(6)
        if form == 0:
            return "top.on"
        if form == 1 and self.is_tangled:
            return f"{self.pick(self.things).name}.{self.pick(['visible', 'enabled', 'clip', 'anchors.left'])} == true"
        return f"{self.read(thing)} {self.pick(['<', '>', '>=', '==', '!='])} {self.source.randint(0, 60)}"


def random_scene(source, geometry):
    """The texts of a unit's documents by the names of their files; `Main.qml` is among them."""
    return Scene(source, geometry).documents()
