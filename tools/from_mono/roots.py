"""What the roots of a shot name: static fields by class, the stacks of threads, handles, and Mono's own tables."""
from heap_script import BadDump

WORD = 8
# A class has fewer bytes of static fields.
MOST_STATICS = 1 << 22
# A heap has 65,536 handles, and each table of roots needs one.
MOST_HANDLES = 60_000
OF_THREADS = {"Stack": "stack", "ThreadStatic": "threadstatic", "Handle": "native"}


class Roots:
    """What roots name, as numbers of objects: `statics` by region and offset, `tables` by their names, each object
    once, and `handles`, each with its kind. `lost` roots name no object of the shot."""

    def __init__(self, dump):
        self.dump, self.statics, self.handles, self.lost = dump, {}, [], 0
        find, index, tables = dump.regions.finder(dump.shot), dump.shot.index, {}
        for slot, named in dict.fromkeys(dump.shot.roots):
            if named not in index:
                self.lost += 1
                continue
            region, number = find(slot), index[named]
            if region is None:
                tables.setdefault("unknown", {})[number] = None
            elif region.source == "Static" and dump.is_vtable(region.key) and region.size >= WORD:
                self._static(region, slot, number)
            elif region.source == "GCHandle" and len(self.handles) < MOST_HANDLES:
                self.handles.append(("pinned" if "Pinned" in region.name else "strong", number))
            else:
                tables.setdefault(self._table_name(region), {})[number] = None
        self.tables = {name: list(tables[name]) for name in sorted(tables)}

    def _static(self, region, slot, number):
        if region.size > MOST_STATICS:
            raise BadDump(f"the static fields of a class have {region.size:,} bytes")
        at = slot - region.start
        if at % WORD == 0 and at + WORD <= region.size:
            self.statics.setdefault(region, {})[at] = number

    def _table_name(self, region):
        """The name of a table: of the thread for what threads have, and else of the region."""
        if region.source in OF_THREADS and region.key:
            thread = self.dump.threads.get(region.key) or f"{region.key:x}"
            return f"{OF_THREADS[region.source]}.{thread}"
        return (region.name or region.source).removesuffix(" Table").replace(" ", "_")
