"""Keys as SQL: which triples of a graph are to be kept, for any engine.

What is kept: of each valuation of a key at an entity whose values some valuation of the key at another entity has, too, the image of
each edge, and the rdf:type row of each entity variable and wildcard (crates/sifted_graph, specs/Sifted.antt).

A relation is a predicate together with what the key has at its other end: some node, some literal, or one constant. The loader fills
gkey_row(r, s, o, f): the number of a relation, the subject and the object of a triple of it, as texts, and the folded text of the object
where some key folds it, which is empty elsewhere. All that follows is CREATE TABLE AS SELECT, INSERT SELECT and DROP, with plain joins,
GROUP BY and <>. Of texts it asks only whether they are equal, and their order where a group has two different ones.
"""

from key_files import TYPE, is_literal

NODE, LITERAL = "node", "literal"
TABLES = ("CREATE TABLE gkey_row(r INTEGER, s TEXT, o TEXT, f TEXT)", "CREATE TABLE gkey_predicate(p INTEGER, t TEXT)",
          "CREATE TABLE gkey_kept(p INTEGER, s TEXT, o TEXT)")
SIFTED = "SELECT s, p, o FROM gkey_sifted ORDER BY s, p, o"


def end_of(slot):
    """What stands at a slot, as a relation has it."""
    return slot.term if slot.kind == "fixed" else NODE if slot.kind in ("entity", "any") else LITERAL


def is_text(slot):
    return slot.kind in ("value", "folded") or slot.kind == "fixed" and is_literal(slot.term)


class Plan:
    """The numbers of relations and predicates, and the statements of each key."""

    def __init__(self, keys):
        self.keys, self.ends, self.folding, self.predicates = keys, {}, set(), {}
        for key in keys:
            for slot in key.slots:
                if slot.kind in ("entity", "any"):
                    self.relation(TYPE, slot.term)
            for _, predicate, end in key.edges:
                number = self.relation(predicate, end_of(key.slots[end]))
                if key.slots[end].kind == "folded":
                    self.folding.add(number)

    def relation(self, predicate, end):
        """The number of a relation, from 1."""
        self.predicates.setdefault(predicate, len(self.predicates) + 1)
        ends = self.ends.setdefault(predicate, {})
        return ends.setdefault(end, 1 + sum(map(len, self.ends.values())))

    def edges(self):
        """Relation by relation a table of its own, each row once."""
        yield from (f"INSERT INTO gkey_predicate VALUES ({number}, '{text.replace(chr(39), 2 * chr(39))}')"
                    for text, number in self.predicates.items())
        for number in sorted(number for ends in self.ends.values() for number in ends.values()):
            yield (f"CREATE TABLE gkey_edge_{number} AS SELECT DISTINCT s, o{', f' * (number in self.folding)} FROM gkey_row "
                   f"WHERE r = {number}")
        yield "DROP TABLE gkey_row"

    def of_key(self, place):
        """First the entities with what is right at them, of which only those stay that share it; then the rest of the key."""
        key, joins = self.keys[place], None
        core = [edge for edge in key.edges if edge[0] == 0 and key.slots[edge[2]].kind in ("value", "folded")]
        rest = [edge for edge in key.edges if edge not in core]
        for stage, edges in enumerate([edges for edges in (core, rest) if edges]):
            fits, shared = f"gkey_fit_{place}_{stage}", f"gkey_shared_{place}_{stage}"
            joins = Joins(self, key, f"gkey_shared_{place}_{stage - 1}" if joins else None, joins)
            joins.add_all(edges)
            yield f"CREATE TABLE {fits} AS SELECT {joins.columns()} FROM {joins.text}"
            if stage:
                yield f"DROP TABLE gkey_shared_{place}_{stage - 1}"
            yield f"CREATE TABLE {shared} AS SELECT c.* FROM {fits} c {self.sharing(joins.values(), fits)}"
            yield f"DROP TABLE {fits}"
        yield from self.rows(key, shared)
        yield f"DROP TABLE {shared}"

    @staticmethod
    def sharing(values, fits):
        """Joins the groups of equal values that have two entities. A key without values has one group."""
        if not values:
            return f"JOIN (SELECT MIN(n0) AS a, MAX(n0) AS b FROM {fits}) d ON d.a < d.b"
        names, alike = ", ".join(values), " AND ".join(f"d.{value} = c.{value}" for value in values)
        return f"JOIN (SELECT {names} FROM {fits} GROUP BY {names} HAVING MIN(n0) < MAX(n0)) d ON {alike}"

    def rows(self, key, fits):
        """The rows of the valuations that are left."""
        for start, predicate, end in key.edges:
            yield f"INSERT INTO gkey_kept SELECT DISTINCT {self.predicates[predicate]}, n{start}, n{end} FROM {fits}"
        for slot, (kind, term) in enumerate(key.slots):
            if kind in ("entity", "any"):
                yield (f"INSERT INTO gkey_kept SELECT DISTINCT {self.predicates[TYPE]}, t.s, t.o FROM {fits} c "
                       f"JOIN gkey_edge_{self.relation(TYPE, term)} t ON t.s = c.n{slot}")

    def end(self):
        yield ("CREATE TABLE gkey_sifted AS SELECT DISTINCT k.s, p.t AS p, k.o FROM gkey_kept k "
               "JOIN gkey_predicate p ON p.p = k.p")

    def statements(self):
        """All of them, each with the name of what it is for."""
        yield from ((None, text) for text in TABLES)
        yield from (("the keys' edges", text) for text in self.edges())
        for place, key in enumerate(self.keys):
            yield from ((f"key {key.name}", text) for text in self.of_key(place))
        yield from (("the sifted graph", text) for text in self.end())


def made_by(text):
    """The table that a statement makes, or None."""
    return text.split()[2].split("(")[0] if text.startswith("CREATE TABLE") else None


class Joins:
    """A FROM clause that grows edge by edge. `bound` has the expression of each slot that it has reached, `folded` that of a folded
    slot's folded text."""

    def __init__(self, plan, key, source, before):
        self.plan, self.key, self.count = plan, key, 0
        if before is None:
            self.text, self.bound, self.folded = f"gkey_edge_{plan.relation(TYPE, key.slots[0].term)} x", {0: "x.s"}, {}
        else:
            self.text, self.bound, self.folded = f"{source} c", {s: f"c.n{s}" for s in before.bound}, {s: f"c.f{s}" for s in before.folded}

    def add_all(self, edges):
        left = list(edges)
        while left:
            self.add(*left.pop(next(n for n, edge in enumerate(left) if edge[0] in self.bound or edge[2] in self.bound)))

    def add(self, start, predicate, end):
        """An edge of which one end is reached, and the type of the other. Different nodes of a valuation are different names."""
        relation = self.plan.relation(predicate, end_of(self.key.slots[end]))
        edge, self.count = f"e{self.count}", self.count + 1
        ends = ((start, f"{edge}.s"), (end, f"{edge}.o"))
        wants = [f"{column} = {self.bound[slot]}" for slot, column in ends if slot in self.bound]
        kind = ""
        for slot, column in ends:
            if slot not in self.bound:
                wants += [f"{column} <> {other}" for near, other in self.bound.items()
                          if is_text(self.key.slots[near]) == is_text(self.key.slots[slot])]
                self.bound[slot] = column
                if self.key.slots[slot].kind in ("entity", "any"):
                    kind = f" JOIN gkey_edge_{self.plan.relation(TYPE, self.key.slots[slot].term)} t{slot} ON t{slot}.s = {column}"
                elif self.key.slots[slot].kind == "folded":
                    self.folded[slot] = f"{edge}.f"
        self.text += f" JOIN gkey_edge_{relation} {edge} ON {' AND '.join(wants)}{kind}"

    def columns(self):
        return ", ".join([f"{column} AS n{slot}" for slot, column in self.bound.items()] +
                         [f"{column} AS f{slot}" for slot, column in self.folded.items()])

    def values(self):
        """The columns that hold the values of a valuation: the literal, or its folded text."""
        return [f"f{slot}" if slot in self.folded else f"n{slot}" for slot in self.bound if self.key.slots[slot].kind in ("value", "folded")]
