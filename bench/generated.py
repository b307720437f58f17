"""Facts and axioms of the generator's kind, as files for `quest answer`, as numbers for SQLite and PostgreSQL, and as facts for clingo: 32
classes and 8 object properties in two trees, as many draws as individuals, half of them links.

`compare` asks the program and its peers some queries. The program goes from the bytes of three files to the answers, and clingo from those
of one file; the databases load numbers into indexed tables, and answer by ranges of numbers. The counts of answers are compared. The program
runs three times, for its best time and the most memory; the others run once."""
import shutil, sqlite3, sys, tempfile, time
from pathlib import Path
import postgres
from measured import best, run

CLASSES, ROLES = 32, 8
TYPE = "<http://www.w3.org/1999/02/22-rdf-syntax-ns#type>"
FILES = ["ontology.ofn", "data.nt", "query.q"]


def draws(seed):
    """The numbers that are drawn one after the other, each below the one asked for."""
    x = seed
    below = yield
    while True:
        x = (x * 6364136223846793005 + 1442695040888963407) % 2**64
        below = yield (x >> 33) % below


def axioms():
    """The axioms, as the lines of an ontology."""
    lines = [f"SubClassOf(<c{i:02}> <c{i // 2:02}>)" for i in range(1, CLASSES)]
    lines += [f"SubObjectPropertyOf(<p{j}> <p{j // 2}>)" for j in range(1, ROLES)]
    lines += [f"SubClassOf(<c{4 * j:02}> ObjectSomeValuesFrom(<p{j}> <c{4 * j + 1:02}>))" for j in range(ROLES)]
    return lines + ["ObjectPropertyDomain(<p0> <c03>)"]


def facts(size, seed=1, individuals=None):
    """The class facts, as classes with individuals, and the role facts, as roles with two individuals. Unless said otherwise there are as
    many individuals as draws."""
    individuals = individuals or size
    draw = draws(seed)
    next(draw)
    members, links = [], []
    for _ in range(size):
        if draw.send(2) == 0:
            members.append((draw.send(CLASSES), draw.send(individuals)))
        else:
            links.append((draw.send(ROLES), draw.send(individuals), draw.send(individuals)))
    return members, links


def write(folder, members, links):
    """Writes ontology and data, and gives the bytes of the data."""
    (folder / "ontology.ofn").write_text("Ontology(\n" + "\n".join(axioms()) + "\n)\n")
    with (folder / "data.nt").open("w") as data:
        for member_of, who in members:
            data.write(f"<n{who:06}> {TYPE} <c{member_of:02}> .\n")
        for role, one, two in links:
            data.write(f"<n{one:06}> <p{role}> <n{two:06}> .\n")
    return (folder / "data.nt").stat().st_size


def below_role(role):
    return [r for r in range(ROLES) if role in chain(r)]


def chain(number):
    """The numbers above one in a tree, itself among them."""
    numbers = [number]
    while number > 0:
        number //= 2
        numbers.append(number)
    return numbers


def below_class(member_of):
    """The classes below a class, and the roles whose subjects are in it. Some neighbour by a role is by a role above it too, and a class
    that has one by p0 is in c03."""
    classes, subjects = {member_of}, set()
    while True:
        before = len(classes) + len(subjects)
        classes |= {c for c in range(CLASSES) if classes & set(chain(c))}
        if 3 in classes:
            subjects |= set(range(ROLES))
        classes |= {4 * j for j in range(ROLES) if j in subjects}
        if len(classes) + len(subjects) == before:
            return sorted(classes), sorted(subjects)


def among(column, numbers):
    """A condition that a column is one of some numbers, as ranges of them."""
    ranges, start = [], None
    for n in range(max(CLASSES, ROLES) + 1):
        if n in numbers and start is None:
            start = n
        elif n not in numbers and start is not None:
            ranges.append(f"{column} BETWEEN {start} AND {n - 1}")
            start = None
    return "(" + " OR ".join(ranges) + ")"


def members_query(member_of):
    """The members of a class, as a query of SQLite."""
    classes, subjects = below_class(member_of)
    query = f"SELECT who AS x FROM members WHERE {among('class', classes)}"
    if subjects:
        query += f" UNION SELECT one AS x FROM links WHERE {among('role', subjects)}"
    return query


def links_query(role):
    """The pairs of a role, as a query of SQLite."""
    return f"SELECT DISTINCT one, two FROM links WHERE {among('role', below_role(role))}"


CREATE = ["CREATE TABLE members (class INTEGER, who INTEGER)", "CREATE TABLE links (role INTEGER, one INTEGER, two INTEGER)"]
INDEXES = ["members (class, who)", "members (who, class)", "links (role, one, two)", "links (one, two, role)", "links (two, one, role)"]


class Sqlite:
    name = "SQLite"

    def __init__(self, members, links):
        start = time.process_time()
        self.base = sqlite3.connect(":memory:")
        for statement in CREATE:
            self.base.execute(statement)
        self.base.executemany("INSERT INTO members VALUES (?, ?)", members)
        self.base.executemany("INSERT INTO links VALUES (?, ?, ?)", links)
        for index in INDEXES:
            self.base.execute(f"CREATE INDEX '{index}' ON {index}")
        self.loading = time.process_time() - start

    def ask(self, sql, body):
        """How many answers a query has, and the seconds that loading and answering take."""
        start = time.process_time()
        count = len(self.base.execute(sql).fetchall())
        return count, self.loading + time.process_time() - start

    def stop(self):
        self.base.close()


class Postgres(postgres.Server):
    name = "PostgreSQL"

    def __init__(self, members, links):
        super().__init__()
        rows = ["".join("\t".join(map(str, row)) + "\n" for row in table) for table in (members, links)]
        text = ";\n".join(CREATE) + f";\nCOPY members FROM STDIN;\n{rows[0]}\\.\nCOPY links FROM STDIN;\n{rows[1]}\\.\n"
        self.loading, _ = self.timed(text + "".join(f"CREATE INDEX ON {index};\n" for index in INDEXES) + "ANALYZE;")

    def ask(self, sql, body):
        seconds, lines = self.timed(f"SELECT COUNT(*) FROM ({sql}) AS found;")
        return int(lines[0]), self.loading + seconds


class Clingo:
    name = "clingo"

    def __init__(self, members, links):
        self.folder = Path(tempfile.mkdtemp())
        with (self.folder / "facts.lp").open("w") as data:
            data.writelines(f"m({member_of},{who}).\n" for member_of, who in members)
            data.writelines(f"l({role},{one},{two}).\n" for role, one, two in links)

    def ask(self, sql, body):
        (self.folder / "query.lp").write_text(rules(body))
        # It ends with 30 where there is a model and no other.
        its = run(["clingo", "-V0", "facts.lp", "query.lp"], self.folder, self.folder / "output", 30)
        return (self.folder / "output").read_text().count("q("), its.processor

    def stop(self):
        shutil.rmtree(self.folder)


def rules(body):
    """A query as rules, with those of the classes and the roles that it asks for."""
    lines = [f"q({body[0]}) :- {body[1]}.", "#show.", f"#show q({body[0]}) : q({body[0]})."]
    for n in range(CLASSES):
        if f"c{n}(" in body[1]:
            classes, subjects = below_class(n)
            lines += [f"b{n}({k})." for k in classes] + [f"s{n}({k})." for k in subjects]
            lines += [f"c{n}(X) :- m(C, X), b{n}(C).", f"c{n}(X) :- l(R, X, Y), s{n}(R)."]
    for n in range(ROLES):
        if f"p{n}(" in body[1]:
            lines += [f"r{n}({k})." for k in below_role(n)] + [f"p{n}(X, Y) :- l(R, X, Y), r{n}(R)."]
    return "\n".join(lines) + "\n"


def peers(members, links):
    found = [Sqlite(members, links)]
    for kind, installed in ((Postgres, postgres.is_installed()), (Clingo, shutil.which("clingo"))):
        if installed:
            found.append(kind(members, links))
        else:
            print(f"{kind.name}: not installed, so not compared")
    return found


def compare(program, queries, size=1_000_000, limit="1000000"):
    """Asks each query: its name, its text, its SQL over the parts {c3} and {p0}, and its head and its body as a rule."""
    members, links = facts(size)
    parts = {f"c{n}": members_query(n) for n in range(CLASSES)} | {f"p{n}": links_query(n) for n in range(ROLES)}
    asked = peers(members, links)
    try:
        with tempfile.TemporaryDirectory() as place:
            folder = Path(place)
            bytes_of_data = write(folder, members, links)
            print(f"{len(set(members)) + len(set(links))} facts, {bytes_of_data / 1e6:.0f} MB")
            for name, text, sql, body in queries:
                (folder / "query.q").write_text(text + "\n")
                quest = best([program, "answer", *FILES, "--limit", limit], folder, folder / "output")
                with (folder / "output").open() as output:
                    counts = [output.readline(), output.readline()]
                print(f"{name}: {counts[1].strip()}\n  quest: {quest}, {quest.memory / bytes_of_data:.1f} times the file", flush=True)
                for peer in asked:
                    count, seconds = peer.ask(sql.format(**parts), body)
                    if counts[1] != f"answers {count}\n":
                        sys.exit(f"{name}: {peer.name} has {count}")
                    print(f"  {peer.name}: {seconds:.2f} s of the processor", flush=True)
    finally:
        for peer in asked:
            peer.stop()
