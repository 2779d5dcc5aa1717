"""Looks in the sources for what pages name: crates, files, definitions, functions, clauses, lemmas. Run this file.

The pages are those of docs/, the README of each crate, and that of its proofs where it has one."""
import re
import sys
import unittest
from functools import cache
from pathlib import Path

sys.dont_write_bytecode = True
TOP = Path(__file__).resolve().parent.parent
CRATES = TOP / "crates"
NAMES = ("ARCHITECTURE.md", "HEAP.md", "MODEL.md", "PROVED.md", "THEOREM.md")
PAGES = {name: (TOP / "docs" / name).read_text(encoding="utf-8") for name in NAMES}
PROOFS = [*TOP.glob("crates/*/PROOFS.md")]
LINKING = [TOP / "README.md", TOP / "bench/README.md", *TOP.glob("docs/*.md"), *TOP.glob("*/*/README.md"), *PROOFS]
# What pages name of other crates, of tools and of the system.
BEYOND = {"ArrayVec", "README", "examples", "stdin", "stdout", "tools"}


def uses():
    """What each crate uses, by its name."""
    lines = [line.split("#")[0] for line in (TOP / "crates.txt").read_text(encoding="utf-8").splitlines()]
    pairs = [line.split(":") for line in lines if ":" in line]
    return {name.split()[0]: words.split() for name, words in pairs}


def files(crate, *folders):
    """The sources, definitions and lemmas of a crate that stand in one of these folders."""
    paths = [path for folder in folders for path in (CRATES / crate / folder).rglob("*")]
    return [path for path in paths if path.suffix in (".rt", ".antt")]


def text(crates, *folders):
    """All that stands there."""
    return "\n".join(path.read_text(encoding="utf-8") for crate in crates for path in files(crate, *folders))


def has_word(word, within):
    return re.search(rf"(?<![\w]){re.escape(word)}(?![\w])", within) is not None


def is_defined(name, within):
    """Whether a definition, a struct or a function has the name."""
    kinds = "record|data|abbrev|unfoldable|pub|struct|enum|trait|fn|mod"
    return re.search(rf"\b({kinds}) {re.escape(name)}\b", within) is not None


def is_lemma(name, within):
    """Whether a lemma has the name that other files can cite, at the top or in a module of the file."""
    return re.search(rf"^ *(unfoldable )?pub {re.escape(name)} :", within, re.MULTILINE) is not None


@cache
def cited():
    """The lemmas that some file of proofs imports, each with its file."""
    found = re.findall(r"^use Rattle\.(\w+)\.proofs\.(\w+)\.\{(.*)\}$", text(uses(), "proofs"), re.MULTILINE)
    return {(f"{crate}/proofs/{name}.antt", lemma) for crate, name, all_of_it in found
            for lemma in all_of_it.split(", ")}


def rows(page, columns):
    """The rows of the page's tables that have so many columns, without their heads."""
    split = [re.split(r"(?<!\\)\|", line.strip("|\n")) for line in re.findall(r"^\|.*\|$", page, re.MULTILINE)]
    return [[cell.strip() for cell in row] for row in split if len(row) == columns and set(row[0]) != {"-"}]


def anchors(page):
    """The anchors of a page's headings."""
    heads = re.findall(r"^#+ (.*)$", re.sub(r"^```.*?^```$", "", page, flags=re.MULTILINE | re.DOTALL), re.MULTILINE)
    return {re.sub(r"[^\w\- ]", "", head.lower()).replace(" ", "-") for head in heads}


def crate_pages():
    """The README of each crate, by the crate's name."""
    return {name: (CRATES / name / "README.md").read_text(encoding="utf-8") for name in uses()}


def sections():
    """What each crate's README says of its files."""
    found = [(name, re.search(r"^## Files\n(.*?)(?=^## |\Z)", page, re.MULTILINE | re.DOTALL))
             for name, page in crate_pages().items()]
    return [(name, section.group(1)) for name, section in found if section]


class Names(unittest.TestCase):
    def test_crates_are_those_of_crates_txt_lowest_first(self):
        cells = [row[0] for row in rows(PAGES["ARCHITECTURE.md"], 2) if row[0].startswith("clr")]
        told = [name for cell in cells for name in cell.split(", ")]
        self.assertEqual(sorted(told), sorted(uses()))
        for place, name in enumerate(told):
            with self.subTest(crate=name):
                self.assertLessEqual(set(uses()[name]) & set(told), set(told[:place]))

    def test_files_stand_in_their_crate(self):
        for crate, section in sections():
            there = {path.name for path in files(crate, "src", "specs", "proofs")}
            for name in re.findall(r"`(?:[\w/]+/)?(\w+\.(?:rt|antt))`", section):
                with self.subTest(crate=crate, file=name):
                    self.assertIn(name, there)

    def test_definitions_and_lemmas_stand_in_their_crate(self):
        for crate, section in sections():
            all_of_it = text([crate], "src", "specs", "proofs")
            there = {path.stem for path in files(crate, "specs", "proofs")}
            for part in re.findall(r"`(?:specs|proofs)/`: (.*?)(?=\n- |\Z)", section, re.DOTALL):
                for name in re.findall(r"`([A-Z]\w+)`", part):
                    with self.subTest(crate=crate, name=name):
                        self.assertTrue(name in there or is_defined(name, all_of_it))

    def check_claim(self, where, clauses):
        """The functions that `where` names, and the clauses, stand in the crates that it names."""
        crates = [name for name in re.findall(r"\bclr\w+", where) if name in uses()]
        code, definitions = text(crates, "src"), text(crates, "specs")
        for name in re.findall(r"`([\w:]+)`", where):
            with self.subTest(where=where, function=name):
                self.assertRegex(code, rf"\b(fn|struct|enum|trait) {name.split('::')[-1]}\b")
        for name in re.findall(r"`([\w.]+)`", clauses):
            with self.subTest(where=where, clause=name):
                self.assertTrue(has_word(name.split(".")[-1], code) or has_word(name.split(".")[-1], definitions))

    def test_claims_name_functions_and_clauses(self):
        page = re.search(r"^## What is proved\n(.*?)^## ", PAGES["PROVED.md"], re.MULTILINE | re.DOTALL)[1]
        items = re.findall(r"^- (.*?)(?=^- |^$)", page, re.MULTILINE | re.DOTALL)
        items = [re.sub(r"\s+", " ", item) for item in items]
        claims = []
        for item in items:
            told = re.search(r" \((clr_[^()]*)\) ?$", item)
            self.assertTrue(told, item)
            for claim in told[1].split("; "):
                where, _, clauses = claim.partition("`: ")
                claims.append(["", where if not clauses else f"{where}`", clauses])
        self.assertGreater(len(claims), 45)
        for name, page in crate_pages().items():
            told = [row for row in rows(page, 3) if row[0] not in ("property", "fact")]
            claims += [[row[0], row[1] if row[1].startswith("clr") else f"{name}, {row[1]}", row[2]] for row in told]
        self.assertGreater(len(claims), 240)
        for _, where, clauses in claims:
            self.check_claim(where, clauses)

    def test_reasons_name_what_is_there(self):
        there = set(re.findall(r"\w+", text(uses(), "src", "specs", "proofs")))
        there |= {path.stem for path in TOP.glob("tools/*")} | BEYOND
        pages = {**crate_pages(), "DECISIONS.md": (TOP / "docs/DECISIONS.md").read_text(encoding="utf-8")}
        for page, reasons in pages.items():
            for name in re.findall(r"\w{4,}\b(?!\*)", " ".join(re.findall(r"`([^`]+)`", reasons))):
                with self.subTest(page=page, name=name):
                    self.assertTrue(name in there)

    def test_laws_are_functions(self):
        laws = [row for row in rows(crate_pages()["clr_model"], 2) if row[0] != "law"]
        self.assertGreater(len(laws), 25)
        for _, functions in laws:
            self.check_claim(f"clr_model, {functions}", "")

    def test_each_crate_has_a_page_that_says_what_it_uses(self):
        for name, page in crate_pages().items():
            with self.subTest(crate=name):
                self.assertTrue(page.startswith(f"# {name}\n"))
                told = re.search(r"^It uses (.*?)\.\n\n", page, re.MULTILINE | re.DOTALL)
                words = set() if "no other crate of ours" in told.group(1) else set(re.findall(r"\w+", told.group(1)))
                self.assertEqual(words, set(uses()[name]))

    def test_each_crate_says_where_its_tests_are(self):
        tests = {name for name in uses() if name.endswith("_tests")}
        for name, page in crate_pages().items():
            told = re.search(r"^Its tests: (.*?)\n\n", page, re.MULTILINE | re.DOTALL)
            with self.subTest(crate=name):
                self.assertEqual(told is None, name in tests)
                words = re.sub(r"\s+", " ", told[1]) if told else ""
                self.assertEqual("`must-fail/`" in words, (CRATES / name / "must-fail").is_dir())
                for names, crate in re.findall(r"((?:`\w+\.rt`(?:, )?)+) of (\w+)", words):
                    for file in re.findall(r"`(\w+\.rt)`", names):
                        within = [path for path in files(crate, "src") if path.name == file]
                        self.assertTrue(any(f"{name}::" in path.read_text(encoding="utf-8") for path in within), file)

    def check_definitions(self, where, defined):
        """Each file that is linked in the words has the definitions that stand behind it."""
        for label, names in re.findall(r"\[((?:\w+/)?\w+\.antt)\]((?: `\w+`,?)*)", defined):
            crate, name = label.split("/") if "/" in label else ("clr_model", label)
            within = (CRATES / crate / "specs" / name).read_text(encoding="utf-8")
            for definition in re.findall(r"`(\w+)`", names):
                with self.subTest(rule=where, file=label, definition=definition):
                    self.assertTrue(is_defined(definition, within))

    def check_lemmas(self, where, told, links):
        """The words are files of proofs, each linked, and the lemmas that stand there for others to cite."""
        one = r"\[(clr\w+/proofs/\w+\.antt)\] (`[\w-]+`(?:, `[\w-]+`)*)"
        self.assertRegex(told, rf"^{one}(?:, {one})*$", where)
        for label, names in re.findall(one, told):
            self.assertEqual(links[label], f"../crates/{label}")
            within = (CRATES / label).read_text(encoding="utf-8")
            for lemma in re.findall(r"`([\w-]+)`", names):
                with self.subTest(rule=where, file=label, lemma=lemma):
                    self.assertTrue(is_lemma(lemma, within))
                    self.assertIn((label, lemma), cited())

    def test_pages_of_proofs_name_lemmas(self):
        self.assertGreater(len(PROOFS), 4)
        for page in PROOFS:
            crate, told = page.parent.name, page.read_text(encoding="utf-8")
            self.assertLessEqual(len(told.splitlines()), 60)
            named = re.findall(r"\[(\w+)\]\(proofs/\1\.antt\)((?: `[\w-]+`,?)+)", re.sub(r"\s+", " ", told))
            self.assertEqual(len(named), told.count(".antt)"))
            for name, lemmas in named:
                within = (page.parent / f"proofs/{name}.antt").read_text(encoding="utf-8")
                for lemma in re.findall(r"`([\w-]+)`", lemmas):
                    with self.subTest(crate=crate, file=name, lemma=lemma):
                        self.assertTrue(is_lemma(lemma, within))
            there = set(re.findall(r"[\w-]+", text([crate], "src", "specs", "proofs")))
            for name in re.findall(r"`([^`]+)`", told):
                with self.subTest(crate=crate, name=name):
                    self.assertTrue(name in there)

    def check_code(self, where, code):
        """Each file that is linked in the words has the functions that stand behind it; and the crates of all."""
        crates = []
        for crate, name, functions in re.findall(r"\[(\w+)/(\w+\.rt)\]((?: `[\w:]+`,?)*)", code):
            within = "\n".join(path.read_text(encoding="utf-8") for path in files(crate, "src") if path.name == name)
            for function in re.findall(r"`(?:\w+::)?(\w+)`", functions):
                with self.subTest(rule=where, file=name, function=function):
                    self.assertRegex(within, rf"\bfn {function}\b")
            crates.append(crate)
        return crates

    def test_rules_name_definitions_code_and_tests(self):
        rules = re.findall(r"^#### (.*)\n\n((?:.+\n)+)\n((?:.+\n)+)", PAGES["MODEL.md"], re.MULTILINE)
        self.assertGreater(len(rules), 30)
        links = dict(re.findall(r"^\[(\S+)\]: (\S+)$", PAGES["MODEL.md"], re.MULTILINE))
        for name, _, places in rules:
            told = places.replace("\n", " ").strip()
            parts = re.fullmatch(r"Definition: (.*?)\. Code: (.*)\. Clause: (.*)\. Lemma: (.*)\. Test: (.*)\.", told)
            self.assertTrue(parts, name)
            defined, code, clauses, lemmas, tests = parts.groups()
            self.check_definitions(name, defined)
            self.check_lemmas(name, lemmas, links)
            crates = self.check_code(name, code)
            self.check_claim(", ".join(crates), re.sub(r" of `\w+`", "", clauses))
            for label in re.findall(r"\[([^\]]+)\]", tests):
                with self.subTest(rule=name, test=label):
                    path = TOP / "docs" / links[label]
                    self.assertTrue(path.stem == label or f"fn {label}(" in path.read_text(encoding="utf-8"))

    def test_links_lead_to_what_is_there(self):
        for page in LINKING:
            told = page.read_text(encoding="utf-8")
            links = re.findall(r"\]\(([^)\s]+)\)", told) + re.findall(r"^\[[^\]]+\]: (\S+)$", told, re.MULTILINE)
            for link in links:
                path, _, anchor = link.partition("#")
                with self.subTest(page=page.name, link=link):
                    goal = page.parent / path if path else page
                    self.assertTrue("://" in link or goal.exists())
                    self.assertTrue(not anchor or anchor in anchors(goal.read_text(encoding="utf-8")))

    def test_links_by_label_have_one(self):
        for page in LINKING:
            told = page.read_text(encoding="utf-8")
            there = set(re.findall(r"^\[([^\]]+)\]: \S+$", told, re.MULTILINE))
            for label in re.findall(r"\[([\w/.-]+\.(?:antt|rt))\](?![:(])", told):
                with self.subTest(page=page.name, label=label):
                    self.assertIn(label, there)

    def test_lines_outside_of_code_are_short(self):
        for page in (TOP / "README.md", TOP / "bench/README.md", *TOP.glob("docs/*.md"), *PROOFS):
            fenced = re.split(r"^```.*$", page.read_text(encoding="utf-8"), flags=re.MULTILINE)
            for line in "\n".join(fenced[::2]).splitlines():
                with self.subTest(page=page.name, line=line):
                    self.assertTrue(len(line) <= 120 or line.startswith("    "))

    def test_the_page_on_embedding_shows_a_program(self):
        page = (TOP / "docs/EMBEDDING.md").read_text(encoding="utf-8")
        program = (CRATES / "clr_embed/src/main.rt").read_text(encoding="utf-8")
        program = re.sub(r"^#\[.*\]\n", "", program, flags=re.MULTILINE)
        parts = re.search(r"^```rust\n(.*?)^```$", page, re.MULTILINE | re.DOTALL)[1].strip().split("\n\n")
        self.assertGreater(len(parts), 3)
        for part in parts:
            with self.subTest(part=part):
                self.assertIn(part, program)
        printed = "".join(line[4:] for line in re.findall(r"^    kept .*\n", page, re.MULTILINE))
        self.assertEqual(printed, (CRATES / "clr_embed/stdout").read_text(encoding="utf-8"))

    def test_the_rules_of_the_heap_name_definitions(self):
        named = re.findall(r"[(]`(\w+)`(?: in `(\w+\.antt)`)?[)]", re.sub(r"\s+", " ", PAGES["HEAP.md"]))
        self.assertGreater(len(named), 15)
        for definition, name in named:
            with self.subTest(definition=definition):
                path = CRATES / "clr_model/specs" / name
                within = path.read_text(encoding="utf-8") if name else text(["clr_model"], "specs")
                self.assertTrue(is_defined(definition, within))

    def test_the_theorem_names_definitions_by_their_files(self):
        page = re.sub(r"\s+(> )?", " ", PAGES["THEOREM.md"])
        named = re.findall(r"((?:`\w+`(?:, )?)+) in `([\w/]+\.antt)`", page)
        self.assertGreater(len(named), 30)
        for definitions, name in named:
            path = TOP / name if "/" in name else CRATES / "clr_model/specs" / name
            for definition in re.findall(r"`(\w+)`", definitions):
                with self.subTest(file=name, definition=definition):
                    self.assertTrue(is_defined(definition, path.read_text(encoding="utf-8")))
        clauses = re.findall(r"- `(\w+)` of `(\w+)`, (clr\w+):", page)
        self.assertGreater(len(clauses), 2)
        for clause, function, crate in clauses:
            with self.subTest(clause=clause, function=function):
                contract = rf"fn {function}\b[^;]*\n    ensures {clause} "
                code = re.sub(r"^ *//.*\n", "", text([crate], "src"), flags=re.MULTILINE)
                self.assertTrue(re.search(contract, code))
        told = page.partition(" ## Laws")[2].partition("## Where")[0]
        laws = re.findall(r"`(\w+)`", " ".join(re.findall(r"\((`\w+_[^)]*`)\)", told)))
        functions = re.findall(r"^pub fn (\w+)", text(["clr_laws"], "src"), re.MULTILINE)
        self.assertEqual(sorted(laws), sorted(functions))


if __name__ == "__main__":
    unittest.main()
