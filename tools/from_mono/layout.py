"""Which type of a script stands for which class of a .NET program, and which slot for which offset."""
import re
from array import array
from collections import Counter
from itertools import count

from heap_script import (
    CLASS, MOST_NAME, MOST_SLOTS, REFERENCES, UNUSED, BadDump, Form, Types, has_room_for_shape, rows_for, slot_in_rows,
    spelled, table_length,
)
from offsets import UNKNOWN
from roots import OF_THREADS, Roots

# An object has so many bytes in front of its fields, and an array in front of its elements.
WORD, HEAD, TEXT_HEAD, VECTOR = 8, 16, 24, 32
# An array of structs of more words is one of words.
MOST_ELEMENT = 64
# So many slots of an array are shown where one asks for it.
SHOWN = 16
LOST = "?"
FRAMEWORK = re.compile(r"(mscorlib|netstandard|System|Mono|Microsoft|I18N)(\..*)?\.dll")
NUMBERS = {
    "Boolean", "Byte", "SByte", "Char", "Int16", "UInt16", "Int32", "UInt32", "Int64", "UInt64", "Single", "Double",
    "IntPtr", "UIntPtr", "Decimal", "DateTime", "TimeSpan", "Guid",
}


def spell(text):
    """A name that a script can have. Where it is too long each class in it is told by its last part alone."""
    name = spelled(text)
    return name if len(name) <= MOST_NAME else spelled(without_namespaces(text))


def without_namespaces(name):
    return re.sub(r"(?:[^\W\d][\w`]*\.)+(?=[^\W\d])", "", name)


class Sort:
    """What the objects of a class have in common: how many there are, at which offsets they have references, which
    sizes; the type that stands for the class, the name that this gets, and the number that tells it where others share
    the type. `own` are the bytes of an object on Mono without its elements, and those of an element."""

    def __init__(self, name, image):
        self.name, self.image, self.count = name, image, 0
        self.offsets, self.sizes = set(), set()
        self.type, self.class_name, self.number = "", "", None
        self.form, self.names, self.own = REFERENCES, (), (0, 0)
        self.length_of, self.slot_of = None, None

    def be_class(self, pattern, size):
        """Its objects have a slot for each word behind the head."""
        self.form, self.own = Form("class", pattern or "-"), (size, 0)
        self.length_of, self.slot_of = None, lambda offset: (offset - HEAD) // WORD

    def be_array(self, form, first, element, tail=0):
        """Its objects have elements of so many bytes from an offset on, and so many bytes behind these."""
        self.form, self.own = form, (first + tail, element)
        self.length_of = lambda size: max(size - first - tail, 0) // element
        self.slot_of = lambda offset: (offset - first) // WORD

    def share(self, shape):
        """Its objects get a slot more, for the number that tells their class, and references stand before numbers.
        Without a shape they are arrays of words, with room for a number before each."""
        slot_of, length_of, (base, element) = self.slot_of, self.length_of, self.own
        if shape:
            letters = self.form.pattern.replace("-", "")
            references = [at for at, letter in enumerate(letters) if letter == "r"]
            others = [at for at, letter in enumerate(letters) if letter != "r"]
            slots = {at: slot for slot, at in enumerate(references, 1)}
            self.slot_of = lambda offset: slots[slot_of(offset)]
            unused = [UNUSED] * (shape[0] - len(references))
            named = [self.names[at] for at in references], [self.names[at] for at in others]
            self.names = [CLASS, *named[0], *unused, *named[1]]
            return
        self.slot_of = lambda offset: 2 * slot_of(offset) + 1
        if length_of:
            self.own, self.names = (base, WORD), ()
            self.length_of = lambda size: max(length_of(size) * element // WORD, 1)
        else:
            heads = [CLASS, *[UNUSED] * len(self.names)]
            self.names = [word for head, name in zip(heads, self.names) for word in (head, name)]
            self.length_of = lambda size: max((size - HEAD) // WORD, 1)


class Layout(Types):
    """The types of a script for a shot. What is known of a class is a sort: `sorts` has them, and `sort_of` the number
    of each object's. Of `tables`, which stand for roots, each has its type, the number that tells it where it shares
    this, its length, and pairs of a slot and an object. `known` is what an OFFSETS file says, by class."""

    def __init__(self, dump, known=None):
        super().__init__(spell)
        self.dump, self.shot, self.known, self.unnamed = dump, dump.shot, known or {}, 0
        self._find_sorts()
        self.roots = Roots(dump)
        types = self.define_root_tables(list(self.roots.tables), tuple(f"{kind}." for kind in OF_THREADS.values()))
        self._define_classes()
        self.tables = [*self._static_tables(), *self._root_tables(types)]

    # ---- classes

    def _find_sorts(self):
        """A sort for each class, the number of each object's, and what its objects are like."""
        shot, numbers, self.sorts = self.shot, {}, []
        of_vtable = {}
        for vtable in dict.fromkeys(shot.vtables):
            of = self.dump.vtables[vtable]
            if of not in numbers:
                numbers[of] = len(self.sorts)
                self.sorts.append(Sort(*self.dump.classes[of]))
            of_vtable[vtable] = numbers[of]
        self.sort_of = array("I", map(of_vtable.__getitem__, shot.vtables))
        for (number, size), many in Counter(zip(self.sort_of, shot.sizes)).items():
            self.sorts[number].count += many
            self.sorts[number].sizes.add(size)
        first, offsets = shot.first, shot.offsets
        seen = [sort.offsets for sort in self.sorts]
        for number, sort in enumerate(self.sort_of):
            low, high = first[number], first[number + 1]
            if high > low:
                seen[sort].update(offsets[low:high])
                if offsets[high - 1] + WORD > shot.sizes[number]:
                    raise BadDump(f"the object {shot.addresses[number]:x} has a reference behind its end")

    def _define_classes(self):
        """A type for each class. Where there are too many, those have one that have most objects, and the others share
        types. Arrays of numbers have their own."""
        several = Counter(sort.name for sort in self.sorts)
        for sort in self.sorts:
            self._shape(sort)
            sort.class_name = sort.name if several[sort.name] == 1 else f"{sort.name}<{self._file(sort.image)}>"
        order = sorted(self.sorts, key=lambda one: (
            one.form.shape != "bytes", -one.count, self._is_framework(one.image), one.class_name,
        ))
        room = self.room_for_classes(len(order))
        for sort in order[:room]:
            sort.type = sort.class_name = self.define(sort.class_name, sort.form, sort.names)
        shapes = self.define_shapes({sort: counts_of(sort.form) for sort in order[room:]})
        for sort, (shape, of) in shapes.items():
            sort.share(shape)
            sort.type, sort.form = of, self.types[of]
            sort.number, sort.class_name = self.share(of, sort.class_name, sort.names)

    def _file(self, image):
        """The name of an image's file."""
        return re.split(r"[/\\]", self.dump.images.get(image, ("unknown", ""))[0])[-1]

    def _is_framework(self, image):
        return FRAMEWORK.fullmatch(self._file(image)) is not None

    def _shape(self, sort):
        """Finds what stands for a class, and the names of its slots."""
        known, offsets = self.known.get(sort.name, UNKNOWN), sort.offsets
        is_array = sort.name.endswith("]") and "[" in sort.name
        if any(offset % WORD or offset < (VECTOR if is_array else HEAD) for offset in offsets):
            raise BadDump(f"an object of {sort.name} has a reference at an odd place")
        size = max(sort.sizes)
        if is_array:
            self._shape_array(sort, known)
        elif sort.name == "System.String" and not offsets:
            sort.be_array(Form("bytes"), TEXT_HEAD, 1)
            sort.names = [LOST] * SHOWN
        elif len(sort.sizes) > 1 or (size - HEAD) // WORD > MOST_SLOTS:
            sort.be_array(REFERENCES, HEAD, WORD)
        else:
            fields = self._agreeing(known, offsets)
            references = offsets | {at for at, (kind, _) in fields.items() if kind == "r" and at < size}
            sort.be_class(pattern_of(references, HEAD, size), size)
            sort.names = names_of(fields, references, HEAD, size)

    def _agreeing(self, known, offsets):
        """The fields that are known, where all references of the shot are among them."""
        if offsets <= {at for at, (kind, _) in known.fields.items() if kind == "r"}:
            return known.fields
        self.unnamed += known is not UNKNOWN
        return {}

    def _shape_array(self, sort, known):
        """An array of references, or of numbers. One of structs has a slot for each word of these where their size is
        known, and else it is an array of words. What a rank of two or more needs stands behind the elements."""
        offsets, of, cut = sort.offsets, known.element, sort.name.rindex("[")
        rank = sort.name[cut:].count(",") + 1
        tail = WORD * rank if rank > 1 else 0
        named = {at for at, (kind, _) in known.fields.items() if kind == "r"}
        if not offsets and (sort.name[:cut].removeprefix("System.") in NUMBERS or of > 0 and not named):
            sort.be_array(Form("bytes"), VECTOR, 1, tail)
            sort.names = [LOST] * SHOWN
            return
        sort.be_array(REFERENCES, VECTOR, WORD, tail)
        if of > 0 and of % WORD == 0 and of // WORD <= MOST_ELEMENT:
            if all((offset - VECTOR) % of in named for offset in offsets):
                sort.be_array(Form("structs", pattern_of(named, 0, of)), VECTOR, of, tail)
                names = names_of(known.fields, named, 0, of)
                sort.names = [f"[{at}].{name}" for at in range(-(-SHOWN // len(names))) for name in names]
            else:
                self.unnamed += 1

    # ---- roots

    def _static_tables(self):
        """The tables of static fields that are references, of each class that holds something by one. All share a
        type."""
        for region in sorted(self.roots.statics, key=lambda one: (self.dump.class_of(one.key)[0], one.start)):
            name, held = self.dump.class_of(region.key)[0], self.roots.statics[region]
            known = self.known.get(name, UNKNOWN).statics
            named = {at for at, (kind, _) in known.items() if kind == "r" and 0 <= at <= region.size - WORD}
            references = sorted(named.union(held))
            fields = [known[at][1] if at in named else f"+{at}" for at in references]
            number, _ = self.share_statics(name, fields)
            slots = {slot_in_rows(at): held[offset] for at, offset in enumerate(references) if offset in held}
            yield self.statics_type, number, rows_for(len(references)), slots

    def _root_tables(self, types):
        for table, numbers in self.roots.tables.items():
            of, number = types[table]
            slots = enumerate(numbers) if number is None else zip(map(slot_in_rows, count()), numbers)
            yield of, number, table_length(numbers, number), dict(slots)

    # ---- what is asked for the script

    def all_sizes(self):
        """The bytes of all that the script makes: the index, the objects, and the tables of roots."""
        yield REFERENCES.size(len(self.shot.addresses))
        sizes = {}
        for key in zip(self.sort_of, self.shot.sizes):
            size = sizes.get(key)
            if size is None:
                sort = self.sorts[key[0]]
                size = sizes[key] = sort.form.size(sort.length_of(key[1]) if sort.length_of else 0)
            yield size
        for of, _, length, _ in self.tables:
            yield self.types[of].size(length)

    def own_sizes(self):
        """The bytes of the objects of each class on Mono. Static fields stand outside of its heap."""
        sizes = {name: (0, 0) for of, name in self.shared if of == self.statics_type}
        return sizes | {sort.class_name: sort.own for sort in self.sorts}


def counts_of(form):
    """How many references and numbers an instance has, where a class can have so many."""
    letters = form.pattern.replace("-", "")
    if form.shape != "class" or not has_room_for_shape(len(letters)):
        return None
    return letters.count("r"), letters.count("n")


def pattern_of(references, first, end):
    """The words from an offset on: r where one is a reference, n where it isn't."""
    return "".join("r" if at in references else "n" for at in range(first, end - WORD + 1, WORD))


def names_of(fields, references, first, end):
    """A name for each word: that of the field there, those of several numbers that share it, or its offset, with a mark
    where it is a number: a shot has none. What is behind the last field is room that the heap gave besides."""
    names, last = [], max(fields, default=1 << 64)
    for low in range(first, end - WORD + 1, WORD):
        here = [fields[offset][1] for offset in range(low, low + WORD) if offset in fields]
        name = "|".join(here) or ("room" if low > last else f"+{low}")
        names.append(name if low in references else name + LOST)
    return names
