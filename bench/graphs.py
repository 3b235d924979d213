"""Makes graphs and key files for the measurements: each from a size and a seed alone."""

import itertools
import multiprocessing
import random
import subprocess
import sys

TYPE = "<http://www.w3.org/1999/02/22-rdf-syntax-ns#type>"
SITE = "http://catalogue.example.org/"
NO_KEY = "# no key\n"

CATALOGUE_KEYS = f"""# Two sources of one catalogue.
key label_by_code <{SITE}Label>
value $c
?x <{SITE}code> $c
end
key artist_by_name_and_label <{SITE}Artist>
entity ?l <{SITE}Label>
value $n
?x <{SITE}name> $n
?x <{SITE}signed> ?l
end
key album_by_title_and_artist <{SITE}Album>
entity ?a <{SITE}Artist>
value $t
?x <{SITE}title> $t
?x <{SITE}by> ?a
end
"""

CHAIN_KEYS = """key base <urn:T>
value $n
value $c
?x <urn:name> $n
?x <urn:code> $c
end
key link <urn:T>
entity ?y <urn:T>
value $n
?x <urn:name> $n
?x <urn:next> ?y
end
"""

LINKED_KEYS = """key by_code <urn:T>
value $c
?x <urn:code> $c
end
"""

WIDE_KEYS = """key whole <urn:T>
any _p <urn:P>
entity ?o <urn:O>
value $n
value $t
?x <urn:name> $n
?x <urn:has> _p
_p <urn:tag> $t
_p <urn:of> ?o
end
"""

FANNED_KEYS = """key fanned <urn:T>
entity ?y <urn:O>
entity ?z <urn:P>
value $n
?x <urn:name> $n
?x <urn:one> ?y
?x <urn:other> ?z
end
"""

BIBLIOGRAPHY_KEYS = f"""# Two sources of one bibliography.
key series_by_issn <{SITE}Series>
value $i
?x <{SITE}issn> $i
end
key series_by_title_and_venue <{SITE}Series>
entity ?v <{SITE}Venue>
value $t
?x <{SITE}title> $t
?v <{SITE}of> ?x
end
key venue_by_title_and_series <{SITE}Venue>
entity ?s <{SITE}Series>
value $t
?x <{SITE}title> $t
?x <{SITE}of> ?s
end
key paper_by_title_and_venue <{SITE}Paper>
entity ?v <{SITE}Venue>
value $t
?x <{SITE}title> $t
?x <{SITE}in> ?v
end
# The way to the series passes two wildcards.
key author_by_name_and_series <{SITE}Author>
any _p <{SITE}Paper>
any _v <{SITE}Venue>
entity ?s <{SITE}Series>
value $n
?x <{SITE}name> $n
_p <{SITE}by> ?x
_p <{SITE}in> _v
_v <{SITE}of> ?s
end
# The way to the paper passes a literal.
key author_by_address_and_paper <{SITE}Author>
entity ?p <{SITE}Paper>
value $n
value $a
?x <{SITE}name> $n
?x <{SITE}address> $a
?p <{SITE}contact> $a
end
"""


def mixed(out, triples, seed=1):
    """A graph as exporters write it: IRIs, blank nodes, plain, typed and tagged literals, some escapes and comments."""
    rng = random.Random(seed)
    for n in range(triples):
        kind = rng.randrange(20)
        subject = f"<{SITE}thing/{n // 5}>" if kind else f"_:b{n // 5}"
        predicate = f"<{SITE}terms#p{rng.randrange(40)}>"
        if kind < 6:
            object = f"<{SITE}thing/{rng.randrange(triples // 5 + 1)}>"
        elif kind < 8:
            object = f"_:b{rng.randrange(triples // 5 + 1)}"
        elif kind < 14:
            object = f'"A plain value with the number {rng.randrange(triples)}"'
        elif kind < 16:
            object = f'"{rng.randrange(10 ** 6)}"^^<http://www.w3.org/2001/XMLSchema#integer>'
        elif kind < 18:
            object = f'"ein Wert mit Umlauten \u00e4\u00f6\u00fc {rng.randrange(triples)}"@de'
        else:
            object = f'"a \\"quoted\\" word,\\na line and \\u00E9 {rng.randrange(triples)}"'
        out.write(f"{subject} {predicate} {object} .\n")
        if n % 1000 == 0:
            out.write("# a comment between the lines\n")


def catalogue(out, triples, seed=1):
    """Albums, artists and labels from two sources. Of each thing both sources have a description in three cases of four."""
    rng = random.Random(seed)
    labels = max(2, triples // 132)
    artists = labels * 4
    albums = artists * 4

    def sources():
        return ("a", "b") if rng.randrange(4) else (rng.choice("ab"),)

    held = {}
    for number in range(labels):
        held["label", number] = sources()
        for source in held["label", number]:
            thing = f"<{SITE}{source}/label/{number}>"
            out.write(f"{thing} {TYPE} <{SITE}Label> .\n")
            out.write(f'{thing} <{SITE}code> "L{number}" .\n')
    for number in range(artists):
        label = rng.randrange(labels)
        held["artist", number] = sources()
        for source in held["artist", number]:
            thing = f"<{SITE}{source}/artist/{number}>"
            out.write(f"{thing} {TYPE} <{SITE}Artist> .\n")
            out.write(f'{thing} <{SITE}name> "Artist {number // 2}" .\n')
            if source in held["label", label]:
                out.write(f"{thing} <{SITE}signed> <{SITE}{source}/label/{label}> .\n")
    for number in range(albums):
        artist = rng.randrange(artists)
        for source in sources():
            thing = f"<{SITE}{source}/album/{number}>"
            out.write(f"{thing} {TYPE} <{SITE}Album> .\n")
            out.write(f'{thing} <{SITE}title> "Album {number // 3}" .\n')
            out.write(f'{thing} <{SITE}year> "{1960 + rng.randrange(60)}"^^<http://www.w3.org/2001/XMLSchema#gYear> .\n')
            if source in held["artist", artist]:
                out.write(f"{thing} <{SITE}by> <{SITE}{source}/artist/{artist}> .\n")


def bibliography(out, triples, seed=1):
    """Papers, authors, venues and series from two sources. Of each thing both sources have a description in three cases of
    four. A venue's share of the papers goes down with its number, and so does a series' share of the venues."""
    rng = random.Random(seed)
    papers = max(8, triples * 10 // 123)
    authors, venues = papers // 2, max(4, papers // 40)
    series = max(2, venues // 8)
    held = {}

    def described(kind, number):
        held[kind, number] = ("a", "b") if rng.randrange(4) else (rng.choice("ab"),)
        for source in held[kind, number]:
            thing = f"<{SITE}{source}/{kind}/{number}>"
            out.write(f"{thing} {TYPE} <{SITE}{kind.capitalize()}> .\n")
            yield source, thing

    def skewed(count):
        """Of the numbers below the count some number, 0 the most often."""
        return int((count + 1) ** rng.random()) - 1

    def linked(source, thing, predicate, kind, number):
        if source in held[kind, number]:
            out.write(f"{thing} <{SITE}{predicate}> <{SITE}{source}/{kind}/{number}> .\n")

    for number in range(series):
        for source, thing in described("series", number):
            out.write(f'{thing} <{SITE}title> "Series {number // 2}" .\n')
            if rng.randrange(2):
                out.write(f'{thing} <{SITE}issn> "I{number}" .\n')
    for number in range(venues):
        part_of = skewed(series)
        for source, thing in described("venue", number):
            out.write(f'{thing} <{SITE}title> "Venue {number // 3}" .\n')
            linked(source, thing, "of", "series", part_of)
    for number in range(authors):
        for source, thing in described("author", number):
            out.write(f'{thing} <{SITE}name> "Author {number // 4}" .\n')
            if rng.randrange(3):
                out.write(f'{thing} <{SITE}address> "a{number}@example.org" .\n')
    for number in range(papers):
        venue, first, second = skewed(venues), rng.randrange(authors), rng.randrange(authors)
        for source, thing in described("paper", number):
            out.write(f'{thing} <{SITE}title> "Paper {number // 2}" .\n')
            linked(source, thing, "in", "venue", venue)
            linked(source, thing, "by", "author", first)
            linked(source, thing, "by", "author", second)
            out.write(f'{thing} <{SITE}contact> "a{first}@example.org" .\n')


def chain(out, pairs, seed=1):
    """Pairs of which each can be identified once the one before it is."""
    for i in range(pairs):
        out.write(f"<urn:a:{i}> {TYPE} <urn:T> .\n<urn:b:{i}> {TYPE} <urn:T> .\n")
        out.write(f'<urn:a:{i}> <urn:name> "n{i}" .\n<urn:b:{i}> <urn:name> "n{i}" .\n')
        if i == 0:
            out.write('<urn:a:0> <urn:code> "c" .\n<urn:b:0> <urn:code> "c" .\n')
        else:
            out.write(f"<urn:a:{i}> <urn:next> <urn:a:{i - 1}> .\n<urn:b:{i}> <urn:next> <urn:b:{i - 1}> .\n")


class Crowding:
    """What is written to it goes on, but that one album in eight gets one of a few titles. A title's share of these goes
    down with its number."""

    def __init__(self, out, titles, seed):
        self.out, self.titles, self.rng = out, titles, random.Random(seed)

    def write(self, line):
        if f"<{SITE}title>" in line and not self.rng.randrange(8):
            line = line.split(' "')[0] + f' "Album {int((self.titles + 1) ** self.rng.random()) - 1}" .\n'
        self.out.write(line)


def crowded(out, triples, seed=1):
    """The catalogue with crowded titles: some five million candidate pairs for a million triples."""
    catalogue(Crowding(out, max(1, triples // 132 * 16 // 3), seed), triples, seed)


class Renaming:
    """What is written to it goes on, the albums first, and these have titles of which a few are common: each album draws one by its
    number, of a thousand million titles, and a title's share goes down with its number."""

    TITLES, FALL = 10 ** 9, 0.9

    def __init__(self, out):
        self.out, self.others = out, []

    def write(self, line):
        if "/album/" not in line:
            self.others.append(line)
            return
        if f"<{SITE}title>" in line:
            rest, drawn = 1 - self.FALL, random.Random(int(line.split("/album/")[1].split(">")[0])).random()
            title = int((drawn * (self.TITLES ** rest - 1) + 1) ** (1 / rest))
            line = line.split(' "')[0] + f' "Album {title}" .\n'
        self.out.write(line)

    def end(self):
        self.out.writelines(self.others)


def common(out, triples, seed=1):
    """The catalogue with titles of which a few are common: for a million triples some 5.7 million candidate pairs, of which the
    ten most common titles have five in six. The albums come first, so their pairs are searched before artists and labels are
    identified."""
    renaming = Renaming(out)
    catalogue(renaming, triples, seed)
    renaming.end()


def entity(out, name, text, code=None, following=None):
    out.write(f'<urn:{name}> {TYPE} <urn:T> .\n<urn:{name}> <urn:name> "{text}" .\n')
    if code is not None:
        out.write(f'<urn:{name}> <urn:code> "{code}" .\n')
    if following is not None:
        out.write(f"<urn:{name}> <urn:next> <urn:{following}> .\n")


def members(pairs):
    """The least number of entities that have so many pairs."""
    return next(n for n in itertools.count(2) if n * (n - 1) // 2 >= pairs)


def missed(out, pairs, seed=1):
    """Entities of one name, each of which leads to another one, so that none is another."""
    for i in range(members(pairs)):
        entity(out, f"a:{i}", "one", following=f"b:{i}")
        entity(out, f"b:{i}", f"n{i}")


def matched(out, pairs, seed=1):
    """Entities of one name and one code: one class."""
    for i in range(members(pairs)):
        entity(out, f"a:{i}", "one", code="c")


def woken(out, pairs, seed=1):
    """Entities of one name, of which each leads to one of a chain that is identified pair by pair; each of these steps wakes
    the pair that leads to it."""
    count = members(pairs)
    for i in range(count):
        entity(out, f"a:{i}", "one", following=f"b:{i}")
        entity(out, f"b:{i}", f"n{i // 2}", code="c" if i < 2 else None, following=f"b:{i - 2}" if i >= 2 else None)


def linked(out, names, seed=1):
    """Entities of which each shares a code with the next: one class of all of them, by as many pairs."""
    for i in range(names):
        out.write(f'<urn:a:{i}> {TYPE} <urn:T> .\n<urn:a:{i}> <urn:code> "c{i}" .\n<urn:a:{i}> <urn:code> "c{i + 1}" .\n')


def wide(out, pairs, seed=1, parts=12):
    """Entities of one name, each with parts of one tag and of makers of their own. So none is another, which is seen once each
    part of the one has been tried beside each of the other."""
    for i in range(members(pairs)):
        entity(out, f"a:{i}", "one")
        for part in range(parts):
            thing, maker = f"<urn:p:{i}:{part}>", f"<urn:o:{i}:{part}>"
            out.write(f"<urn:a:{i}> <urn:has> {thing} .\n{thing} {TYPE} <urn:P> .\n")
            out.write(f'{thing} <urn:tag> "all" .\n{thing} <urn:of> {maker} .\n{maker} {TYPE} <urn:O> .\n')


def fanned(out, pairs, seed=1, many=40):
    """Entities of one name, each of which leads to many of its own by either of two predicates: far more valuations than entities,
    and none is another."""
    for i in range(members(pairs)):
        entity(out, f"a:{i}", "one")
        for n in range(many):
            out.write(f"<urn:a:{i}> <urn:one> <urn:o:{i}:{n}> .\n<urn:o:{i}:{n}> {TYPE} <urn:O> .\n")
            out.write(f"<urn:a:{i}> <urn:other> <urn:p:{i}:{n}> .\n<urn:p:{i}:{n}> {TYPE} <urn:P> .\n")


KINDS = {
    "catalogue": (catalogue, CATALOGUE_KEYS),
    "crowded": (crowded, CATALOGUE_KEYS),
    "common": (common, CATALOGUE_KEYS),
    "bibliography": (bibliography, BIBLIOGRAPHY_KEYS),
    "missed": (missed, CHAIN_KEYS),
    "matched": (matched, CHAIN_KEYS),
    "woken": (woken, CHAIN_KEYS),
    "chain": (chain, CHAIN_KEYS),
    "linked": (linked, LINKED_KEYS),
    "wide": (wide, WIDE_KEYS),
    "fanned": (fanned, FANNED_KEYS),
    "mixed": (mixed, NO_KEY),
}


def made(make, graph, size):
    with graph.open("w", encoding="utf-8") as out:
        make(out, size)


def written(folder, kind, size):
    """The graph of a kind and its key file, written to the folder.

    A process of its own makes the graph: the memory that a script has had in use counts as that of each program that it starts.
    """
    make, key_text = KINDS[kind]
    graph, keys = folder / "graph.nt", folder / "keys.gk"
    keys.write_text(key_text, encoding="utf-8")
    maker = multiprocessing.get_context("fork").Process(target=made, args=(make, graph, size))
    maker.start()
    maker.join()
    if maker.exitcode != 0:
        sys.exit(f"{kind} {size}: the graph was not made")
    return graph, keys


def line_count(path):
    with path.open("rb") as lines:
        return sum(1 for _ in lines)


def parted(folder, graph, parts=100):
    """The lines of a graph in two files, of which the second has the last of so many parts."""
    first, more, count = folder / "first.nt", folder / "more.nt", line_count(graph) // parts
    for command, path in (["head", "-n", f"-{count}", graph], first), (["tail", "-n", str(count), graph], more):
        with path.open("wb") as out:
            subprocess.run(command, stdout=out, check=True)
    return first, more
