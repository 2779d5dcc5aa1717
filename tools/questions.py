"""How questions about a heap are written, how people write them, and what refusals mean: for `ask`."""
import re

ADDRESS = "[0-9a-f]{16}"
FORMS = {
    "dumpheap": (
        "[-stat|-short] [-live|-dead] [-mt M|-type TEXT] [-min N] [-max N] [-gen G] [-segment A]",
        "objects and free items by address",
    ),
    "sorted": ("[N] [OPTION..]", "types by their bytes, most first, with options of dumpheap"),
    "gcheapstat": ("[-inclUnrooted]", "objects, bytes and free bytes by generation; and dead ones"),
    "dumpobj": ("A", "an object and its first 16 slots"),
    "dumparray": ("[-start I] [-length N] A", "slots of an object"),
    "dumpmt": ("M", "a type by its method table"),
    "gcroot": ("[-all] A", "a root, or each one, and a shortest chain to an object"),
    "pathto": ("A B", "a shortest chain from an object to another one"),
    "retained": ("[N|A|TYPE]", "what objects, an object, all objects of a type retain"),
    "suspects": ("", "leak suspects"),
    "tree": ("[N]", "the dominator tree"),
    "incoming": ("A", "the objects that refer to an object, and how"),
    "gcwhere": ("A", "an object's generation and segment"),
    "objsize": ("A", "what an object reaches"),
    "listnearobj": ("A", "what is at and near an address"),
    "ephrefs": ("", "slots that refer to objects of a younger generation"),
    "eeheap": ("-gc", "segments and allocation contexts"),
    "gchandles": ("[-stat|-type KIND]", "handles, their counts, or those of a kind"),
    "finalizequeue": ("", "finalizable objects and the f-reachable queue"),
    "verifyheap": ("", "whether the heap is consistent"),
    "help": ("[COMMAND]", "these lines, or one"),
    "quit": ("", "ends, as the end of the input does"),
}
ALIASES = {
    "do": "dumpobj", "da": "dumparray", "lno": "listnearobj", "fq": "finalizequeue", "heapstat": "gcheapstat",
    "soshelp": "help", "?": "help", "q": "quit", "exit": "quit",
}
# The options of each command in the order in which the program wants them, with what stands behind each.
OPTIONS = {
    "dumpheap": {
        "-stat": "", "-short": "", "-live": "", "-dead": "", "-mt": "address", "-type": "name", "-min": "number",
        "-max": "number", "-gen": "generation", "-segment": "address",
    },
    "dumparray": {"-start": "number", "-length": "number"},
    "gcroot": {"-all": ""},
    "gchandles": {"-stat": "", "-type": "kind"},
    "gcheapstat": {"-inclUnrooted": ""},
}
SPELLED = {"-inclunrooted": "-inclUnrooted", "-iu": "-inclUnrooted"}
AT_ADDRESSES = (
    "dumpobj", "dumparray", "dumpmt", "gcroot", "pathto", "gcwhere", "objsize", "listnearobj", "retained", "incoming",
)
# Why a line was refused, by the word of the refusal. What stands behind that is put into the braces.
WHY = {
    "too-long": "a line has 4,096 bytes at most",
    "unknown-thread": "threads are t1 to t16",
    "blocked": "thread {} suspends all others, until its `resume`",
    "mid-step": "the thread has begun a store or an allocation, which its `step` finishes",
    "not-mid-step": "the thread has begun nothing",
    "background-running": "a background collection runs already",
    "no-background": "no background collection runs",
    "unknown-type": "no type has this name or method table; `dumpheap -stat` shows those that have objects",
    "duplicate-type": "a type has this name already",
    "bad-shape": "a class has no length, and an array needs one; a class has 256 slots at most, a struct 1 to 64",
    "too-many-types": "1,000 types are defined",
    "has-references": "a pinned array has bytes or structs of numbers alone",
    "no-slot": "a thread has locals l0 to l63",
    "null": "the local is null",
    "index": "the object has no slot of this number",
    "not-reference": "the slot has a number: `read` and `put` are for these",
    "is-reference": "the slot has a reference: `get` and `set` are for these",
    "no-handle": "no handle of this number is in use; `gchandles` shows those that are",
    "handle-kind": "only a dependent handle has a secondary",
    "too-many-handles": "65,536 handles are in use",
    "too-big": "an object has at most 1,073,741,824 bytes, and a large one can't be begun",
    "wait": "the line would collect, and thread {} has begun something, which its `step` finishes",
    "no-object": "no object has this address; `listnearobj` shows what is near it",
    "oom": "the heap is full: it needs a larger --limit",
    "empty": "the f-reachable queue is empty",
    "nomem": "the program itself got no memory",
}


def address(word):
    """An address as the program spells it, of one that has `0x` or lacks zeros."""
    digits = re.fullmatch("(?:0[xX])?([0-9a-fA-F]{1,16})", word)
    return digits[1].lower().rjust(16, "0") if digits and (len(digits[1]) > 7 or word[:2] in ("0x", "0X")) else word


def spelled(kind, word):
    """What stands behind an option as the program spells it."""
    if kind == "address":
        return address(word)
    if kind == "number" and re.fullmatch("0[xX][0-9a-fA-F]+", word):
        return str(int(word, 16))
    if kind == "generation":
        return word.lower().removeprefix("gen")
    if kind == "kind":
        return "weak" if word.lower() == "weakshort" else word.lower()
    return word


def in_order(words, kinds):
    """Options of a command in the order in which the program wants them, and the other words behind them."""
    options, others, words = [], [], list(words)
    while words:
        option = SPELLED.get(words[0].lower(), words[0].lower())
        if option not in kinds:
            others.append(words.pop(0))
            continue
        behind = [spelled(kinds[option], word) for word in words[1:2] if kinds[option]]
        options.append([option, *behind])
        del words[:1 + len(behind)]
    options.sort(key=lambda one: list(kinds).index(one[0]))
    return [word for option in options for word in option] + others


def forgive(question):
    """A question as the program spells it, of one that is spelled as debuggers allow it."""
    words = question.strip().removeprefix("!").split()
    if words and words[0].lower() == "sos":
        words = words[1:]
    if not words:
        return question
    verb = ALIASES.get(words[0].lower(), words[0].lower())
    if verb not in FORMS:
        return question
    words = in_order(words[1:], OPTIONS.get(verb, {}))
    if verb in AT_ADDRESSES:
        behind = len(words) - (2 if verb == "pathto" else 1)
        words[behind:] = map(address, words[behind:])
    if verb == "eeheap" and not words:
        words = ["-gc"]
    if verb == "help":
        words = [ALIASES.get(word.lower(), word.lower()) for word in words]
    return " ".join([verb, *words])


def help_lines(verb=None):
    """How each command is written, and what it shows; or one of them."""
    lines = []
    for one in [verb] if verb in FORMS else FORMS:
        form = f"{one} {FORMS[one][0]} "
        lines += [form.rstrip()] * (len(form) > 36)
        lines.append(("" if len(form) > 36 else form).ljust(36) + FORMS[one][1])
    return lines if verb in FORMS else [*lines, "any line of a script (docs/LINES.md), as t1 collect 2"]


def reason(question, refusal):
    """Why the program refused a question, in words."""
    word, *more = refusal.split(" ")[1:]
    verb = question.split(" ")[0]
    if word == "syntax" and verb in FORMS:
        return f"it is written: {verb} {FORMS[verb][0]}".rstrip()
    if word == "syntax":
        return f"`{question[:60]}` is no line of clrheap; `help` has the commands"
    return WHY.get(word, "").format(*more)
