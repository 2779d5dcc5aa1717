"""Reads an image with the names beside it, for `retained`, `report` and `hunt`."""
from endings import fault_of, tell
from heap_findings import Findings
from heap_graph import Heap
from heap_image import BadImage, read_image
from heap_names import BadNames, beside, of_fields
from progress import step

EMPTY = "the heap has no type and no object: each line of its script was refused, as where that is no script"
UNREACHED = "no root reaches an object"


def add_options(parser):
    """The words that say which image is read, and how."""
    parser.add_argument("image", metavar="IMAGE", help="an image of a heap, or - for standard input")
    parser.add_argument("--against", metavar="OLDER", help="an older image, with which to compare")
    parser.add_argument("--fields", metavar="FILE", help="the names of fields, where they don't stand beside the image")
    parser.add_argument(
        "--sizes", choices=("heap", "dump"), default="heap",
        help="the bytes that objects have in the image, or had in the program whose dump it was",
    )


def read(tool, path, fields=None, own_sizes=None, kind=Findings):
    """What is found in an image. Sizes are the heap's, or with `own_sizes` the dumped program's, and where it is None
    these if they are known."""
    try:
        with step(tool, f"reads {path}"):
            names = of_fields(fields) if fields else beside(path)
            heap = Heap(read_image(path), names, bool(names.sizes) if own_sizes is None else own_sizes)
        with step(tool, f"finds the dominators of {len(heap.addresses):,} objects"):
            findings = kind(heap)
    except (BadImage, BadNames, OSError) as fault:
        raise fault_of(path, fault) from fault
    if is_empty(findings):
        tell(tool, f"{path}: {EMPTY}")
    elif not findings.objects[0]:
        tell(tool, f"{path}: {UNREACHED}")
    return findings


def is_empty(findings):
    return len(findings.heap.image.types) == 1 and not findings.heap.addresses


def read_both(tool, words, kind=Findings):
    """The image, and the older one where there is one, or nothing."""
    own = words.sizes == "dump"
    older = read(tool, words.against, words.fields, own, kind) if words.against else None
    return read(tool, words.image, words.fields, own, kind), older
