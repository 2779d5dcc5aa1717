"""Which type of a script stands for which Java class, and which slot for which field."""
import re
from collections import Counter

from heap_script import (
    CLASS, MOST_NAME, MOST_SLOTS, MOST_TYPES, ODD, REFERENCES, UNUSED, Form, Types, has_room_for_shape, slot_in_rows,
    spelled, table_length,
)
from hprof import CLASS_OBJECT, NUMBERS, OBJECT, WHOLE, Kind

# Numbers of these names are kept: they tell how much a collection holds, or which thing it is.
KEPT = {
    "size", "count", "length", "elementCount", "baseCount", "capacity", "used", "total", "id", "index", "coder", "port",
    "state", "status", "code", "position", "limit", "head", "tail",
}
# In the classes of boxed numbers, what is boxed.
BOXED = {f"java/lang/{name}" for name in ("Integer", "Long", "Short", "Byte", "Character", "Boolean")}
ATOMS = {"java/util/concurrent/atomic/AtomicInteger", "java/util/concurrent/atomic/AtomicLong"}
JDK = ("java.", "javax.", "jdk.", "sun.", "com.sun.")
WEAK = ("java/lang/ref/WeakReference", "java/lang/ref/PhantomReference")
LETTERS = {"Z": "boolean", "C": "char", "F": "float", "D": "double", "B": "byte", "S": "short", "I": "int", "J": "long"}
OF_THREAD = "thread."
OF_CLASS_OBJECTS = ("superclass", "loader", "signers", "domain")


def readable(name):
    """A class's name as people write it: [Ljava/lang/String; is java.lang.String[]."""
    element = name.lstrip("[")
    depth = len(name) - len(element)
    if depth:
        element = element[1:-1] if element.startswith("L") else LETTERS.get(element, element)
    return element.replace("/", ".") + "[]" * depth


def abbreviated(name):
    """A name in which so many packages from the front as must be are one letter: what stands last tells most."""
    parts = name.split(".")
    for at in range(parts[0] == "static", len(parts) - 1):
        if sum(map(len, parts)) + len(parts) - 1 <= MOST_NAME:
            break
        parts[at] = parts[at][:1]
    return ".".join(parts)


def spell(text):
    """A name that a script can have. A nested class is spelled with +."""
    return abbreviated(spelled(text.replace("$", "+")))


class Layout(Types):
    """The types of a script for a dump. `types` has their forms by their names, in the order of their definition, and
    `fields` the names of slots by those of classes. What is known of a sort of objects stands in lists by its number:
    `type_of` its type, `class_of` the name of its class, `number_of` the number that tells this where others share the
    type, `slots_of` the slots of its references, or nothing where these are the numbers from 0 on, `kept` the slots
    of numbers that are kept, by their fields, and `weak` which of its references is the weak one, or nothing. What is
    kept of `values` is nothing, some numbers, or texts, too: of each so many `letters`, as the script finds."""

    NO_VALUES, NUMBERS, TEXTS = range(3)

    def __init__(self, dump, weak="null", values=TEXTS):
        super().__init__(spell)
        self.dump, self.values, self.letters = dump, values, 0
        sorts = len(dump.sorts)
        self.type_of, self.class_of, self.number_of = [""] * sorts, [""] * sorts, [None] * sorts
        self.slots_of, self.kept, self.weak = [None] * sorts, [{} for _ in range(sorts)], [None] * sorts
        self.roots_type = self.define("Roots", REFERENCES)
        self.class_object_type = self.define("static", REFERENCES, OF_CLASS_OBJECTS)
        self.root_tables = self._root_tables()
        self.root_types = self.define_root_tables(list(self.root_tables), OF_THREAD)
        self.counts = Counter(dump.sort_of)
        self.java_names = self._java_names()
        self._define_classes()
        self._define_statics()
        if weak != "reference":
            self._find_weak_slots()

    def _root_tables(self):
        """The objects that roots of each kind name. All roots of a thread are of one kind, in its name."""
        threads, tables = self.dump.thread_names(), {}
        for root in self.dump.roots:
            table = f"{OF_THREAD}{threads.get(root.thread, root.thread)}" if root.thread else root.kind
            if root.identity in self.dump.index:
                tables.setdefault(table, {})[root.identity] = None
        return {table: list(tables[table]) for table in sorted(tables)}

    def _java_names(self):
        """The name of the class of each sort. Where classes of one name have several loaders, theirs follow it."""
        names = [
            NUMBERS[of][0] + "[]" if kind is Kind.NUMBERS else readable(self.dump.classes[of].name)
            for kind, of in self.dump.sorts
        ]
        several = Counter((sort.kind, name) for sort, name in zip(self.dump.sorts, names))
        for number, (kind, of) in enumerate(self.dump.sorts):
            if kind is not Kind.NUMBERS and several[kind, names[number]] > 1:
                names[number] += f"<{self._loader_name(of)}>"
        return names

    def _loader_name(self, of):
        """The name of the class of a class's loader, without its package."""
        number = self.dump.index.get(self.dump.classes[of].loader)
        if number is None:
            return "boot"
        return re.split(r"[/$]", self.dump.classes[self.dump.object(number).of].name)[-1]

    def _define_classes(self):
        """A type for each class. Where there are too many, those have one that have most objects, or longest arrays,
        and the others share types. Arrays of numbers have their own."""
        sorts = [number for number, sort in enumerate(self.dump.sorts) if sort.kind is not Kind.CLASS]
        names, weights = self.java_names, self._weights()
        sorts.sort(key=lambda number: (
            self.dump.sorts[number].kind is not Kind.NUMBERS, -weights[number], names[number].startswith(JDK),
            names[number],
        ))
        room = self.room_for_classes(len(sorts))
        for number in sorts[:room]:
            self.type_of[number] = self.class_of[number] = self.define(names[number], *self._form(number))
        shapes = self.define_shapes({number: self._counts(number) for number in sorts[room:]})
        for number, (shape, of) in shapes.items():
            self._take_shared(number, of, shape)

    def _weights(self):
        """How much each sort would lose by a type that is shared: its objects, and the elements of its arrays."""
        weights = Counter(self.counts)
        arrays = {number for number, sort in enumerate(self.dump.sorts) if sort.kind is Kind.REFERENCES}
        for sort, length in zip(self.dump.sort_of, self.dump.lengths) if len(self.dump.sorts) > MOST_TYPES // 2 else ():
            if sort in arrays:
                weights[sort] += length // 4
        return weights

    def _counts(self, number):
        """How many references and numbers an instance has, where a class can have so many."""
        kind, of = self.dump.sorts[number]
        if kind is not Kind.INSTANCE or not has_room_for_shape(len(self.dump.fields(of))):
            return None
        references = sum(field.type == OBJECT for field in self.dump.fields(of))
        return references, len(self.dump.fields(of)) - references

    def _take_shared(self, number, of, shape):
        kind, class_of = self.dump.sorts[number]
        fields = []
        if kind is Kind.REFERENCES:
            self.slots_of[number] = ODD
        if kind is Kind.INSTANCE:
            java, names = self.dump.fields(class_of), self._field_names(class_of)
            references = [at for at, field in enumerate(java) if field.type == OBJECT]
            if shape:
                others = [at for at, field in enumerate(java) if field.type != OBJECT]
                slots = dict(zip(others, range(1 + shape[0], MOST_SLOTS)))
                self._keep(number, names, slots)
                unused = [UNUSED] * (shape[0] - len(references))
                fields = [CLASS, *(names[at] for at in references), *unused]
                fields += [self._marked(number, names, at) for at in others]
                self.slots_of[number] = list(range(1, 1 + len(references)))
            else:
                self.slots_of[number] = [2 * at + 1 for at in range(len(references))]
                heads = [CLASS, *[UNUSED] * len(references)]
                fields = [word for head, at in zip(heads, references) for word in (head, names[at])]
        self.type_of[number] = of
        self.number_of[number], self.class_of[number] = self.share(of, self.java_names[number], fields)

    def _keep(self, number, names, slots):
        """Finds the fields whose numbers are kept, with the slots in which they stand."""
        _, of = self.dump.sorts[number]
        boxed = self.dump.classes[of].name in BOXED | ATOMS
        for at, field in enumerate(self.dump.fields(of)) if self.values else ():
            if field.type in WHOLE and (field.name in KEPT or boxed and field.name == "value"):
                self.kept[number][at] = slots[at]

    def _marked(self, number, names, at):
        """The name of a field of numbers, with a mark where these aren't kept."""
        return names[at] + ("" if at in self.kept[number] else "?")

    def _form(self, number):
        """The form of a sort, and the names of its slots."""
        kind, of = self.dump.sorts[number]
        if kind is Kind.NUMBERS:
            return Form("bytes"), ()
        if kind is not Kind.INSTANCE:
            return REFERENCES, ()
        fields, names = self.dump.fields(of), self._field_names(of)
        references = [slot for slot, field in enumerate(fields) if field.type == OBJECT]
        if len(fields) > MOST_SLOTS:
            return REFERENCES, [names[slot] for slot in references]
        self.slots_of[number] = references
        self._keep(number, names, range(len(fields)))
        pattern = "".join("r" if field.type == OBJECT else "n" for field in fields)
        return Form("class", pattern or "-"), [
            name if field.type == OBJECT else self._marked(number, names, at)
            for at, (name, field) in enumerate(zip(names, fields))
        ]

    def _field_names(self, of):
        """The names of an instance's fields. One that the class has already is called by the class above, too."""
        names = {}
        for one in self.dump.chain(of):
            above = re.split(r"[/$]", self.dump.classes[one].name)[-1]
            for field in self.dump.classes[one].fields:
                name = field.name if field.name not in names else f"{above}.{field.name}"
                names[name if name not in names else f"{name}.{len(names)}"] = None
        return list(names)

    def _define_statics(self):
        """The type of each class object. Those that hold something by a static field share one, with their names."""
        for number, sort in enumerate(self.dump.sorts):
            if sort.kind is not Kind.CLASS:
                continue
            self.type_of[number] = self.class_of[number] = self.class_object_type
            if any(self.dump.classes[sort.of].references[len(OF_CLASS_OBJECTS):]):
                fields = self._static_names(number)
                self.type_of[number] = self.statics_type
                self.number_of[number], self.class_of[number] = self.share_statics(self.java_names[number], fields)
                self.slots_of[number] = [slot_in_rows(at) for at in range(len(fields))]

    def _static_names(self, number):
        return [*OF_CLASS_OBJECTS, *self.dump.classes[self.dump.sorts[number].of].statics]

    def _find_weak_slots(self):
        """For each class of weak references, which of its references is the weak one."""
        for number, (kind, of) in enumerate(self.dump.sorts):
            if kind is Kind.INSTANCE and self.dump.descends(of, WEAK):
                names = [field.name for field in self.dump.fields(of) if field.type == OBJECT]
                if "referent" in names:
                    self.weak[number] = names.index("referent")

    # ---- what is asked for each object

    def fixed_length(self, number):
        """The length that all objects of a sort have in the script: none for a class, -1 where each has its own."""
        kind, of = self.dump.sorts[number]
        if self.types[self.type_of[number]].shape == "class":
            return None
        if kind is Kind.CLASS:
            return table_length(self.dump.classes[of].references, self.number_of[number])
        if kind is Kind.INSTANCE:
            return max(1, sum(field.type == OBJECT for field in self.dump.fields(of)))
        return -1

    def length_in_script(self, sort, length):
        """The length of an array in the script. One whose first number tells its class has one element at least."""
        return length if self.number_of[sort] is None else max(length, 1)

    def sizes(self):
        """The bytes of each object, in their order."""
        forms = [self.types[name] for name in self.type_of]
        fixed = [self.fixed_length(number) for number in range(len(forms))]
        sizes = [None if length == -1 else form.size(length or 0) for form, length in zip(forms, fixed)]
        for sort, length in zip(self.dump.sort_of, self.dump.lengths):
            yield sizes[sort] or forms[sort].size(self.length_in_script(sort, length))

    def all_sizes(self):
        """The bytes of all that the script makes: the index, the objects, and the tables of roots."""
        yield REFERENCES.size(len(self.dump.identities))
        yield from self.sizes()
        yield REFERENCES.size(len(self.root_tables))
        for table, identities in self.root_tables.items():
            of, number = self.root_types[table]
            yield self.types[of].size(table_length(identities, number))

    def own_sizes(self):
        """The bytes of the objects of each class in Java, and so many more for each element."""
        sizes = {self.class_object_type: (CLASS_OBJECT, 0)}
        for (kind, of), name in zip(self.dump.sorts, self.class_of):
            sizes.setdefault(name, self.dump.java_size(kind, of))
        return sizes
