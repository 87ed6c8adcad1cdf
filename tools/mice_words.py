"""What the tools share: DIMACS texts, trace files, and a reader of trace words that knows where it is. See docs/FORMAT.md."""

import sys

WORDS = 32767           # most words of a formula, and of a trace
VARIABLES, CLAUSES, CLAUSE_LENGTH = 512, 2048, 64
SUBFORMULAS = ASSUMPTIONS = CLAIMS = ARGUMENT = STEPS = 1024
REFUTATIONS, ARGUMENTS, PREMISES = 256, 64, 63
RULES = ["axiom", "composition", "join", "extension"]           # 1 to 4
KINDS = ["clause", "literal", "premise", "step"]                # 1 to 4


class Trouble(Exception):
    """Something the user has to hear; ends the tool with status 2."""


def run(main):
    """Runs a tool: its status, or 2 after saying what the trouble is."""
    try:
        sys.exit(main())
    except BrokenPipeError:
        sys.stderr.close()
        sys.exit(2)
    except (Trouble, OSError) as e:
        name = sys.argv[0].rsplit("/", 1)[-1]
        print(f"{name}: {e.filename}: {e.strerror}" if isinstance(e, OSError) else f"{name}: {e}", file=sys.stderr)
        sys.exit(2)


def load(name):
    with open(name, "rb") as f:
        return f.read()


# ---- formulas


class Formula:
    def __init__(self, variables, clauses):
        self.variables, self.clauses = variables, clauses

    def clause(self, number):
        return self.clauses[number - 1]


def is_number(token):
    digits = token.removeprefix(b"-")
    return digits.isdigit() and len(digits) <= 5 and (digits == token == b"0" or not digits.startswith(b"0"))


def pieces(line, at):
    """The tokens of a line that begins at byte `at`, each with its place."""
    for token in line.replace(b"\t", b" ").replace(b"\r", b" ").split(b" "):
        if token:
            yield at, token
        at += len(token) + 1


def read_cnf(name):
    """The formula of a DIMACS file; a faulty text is told with the checker's number and place."""
    text = load(name)

    def refuse(number, place, why):
        raise Trouble(f"{name}: {why} (refused {number} at {place})")

    if len(text) > 65535:
        refuse(1, 65535, "over 65,535 bytes")
    header, clauses, clause, at = None, [], [], 0
    for line in text.split(b"\n"):
        tokens = [] if line.startswith(b"c") else list(pieces(line, at))
        if header is None and tokens:
            words = [t for _, t in tokens]
            if not line.startswith(b"p") or len(words) != 4 or words[:2] != [b"p", b"cnf"] or not all(
                    is_number(w) and not w.startswith(b"-") for w in words[2:]):
                refuse(2, at, "no header `p cnf n m` where it is due")
            header = n, m = int(words[2]), int(words[3])
            if n > VARIABLES or m > CLAUSES:
                refuse(2, at, f"n is at most {VARIABLES} and m at most {CLAUSES}")
            tokens = []
        for place, token in tokens:
            if not is_number(token):
                refuse(3, place, f"{token.decode('latin-1')!r} is no number")
            literal = int(token)
            if len(clauses) == m:
                refuse(6, place, f"something follows the last of {m} clauses")
            if abs(literal) > n:
                refuse(4, place, f"{literal} is beyond {n} variables")
            if literal == 0:
                clauses.append(sorted(clause, key=abs))
                clause = []
            elif abs(literal) in map(abs, clause) or len(clause) == CLAUSE_LENGTH:
                refuse(5, place, f"variable {abs(literal)} twice in a clause, or over {CLAUSE_LENGTH} literals")
            else:
                clause.append(literal)
        at += len(line) + 1
    if header is None:
        refuse(2, len(text), "no header")
    if len(clauses) < m:
        refuse(6, len(text), f"{len(clauses)} of {m} clauses have ended")
    return Formula(n, clauses)


# ---- trace files


def words_of(data):
    """The whole words of a file's bytes: signed, low byte first."""
    return [int.from_bytes(data[i:i + 2], "little", signed=True) for i in range(0, len(data) - 1, 2)]


def bytes_of(words):
    if not all(-32768 <= w <= 32767 for w in words):
        raise Trouble("a list is longer than a 16-bit word can say")
    return b"".join(w.to_bytes(2, "little", signed=True) for w in words)


class Fault(Exception):
    """The first word that is not as it should be: its place, and why."""

    def __init__(self, place, why):
        super().__init__(why)
        self.place, self.why = place, why


class Reader:
    """Reads words from the left, each by its own range and order, for n variables and m clauses."""

    def __init__(self, words, n, m):
        self.words, self.at, self.n, self.m = words, 0, n, m

    def word(self, fits, what, due):
        if self.at == len(self.words):
            raise Fault(self.at, f"the words end where {what} is due")
        word = self.words[self.at]
        if not fits(word):
            raise Fault(self.at, f"word {self.at} is {word}, but {what} is {due}")
        self.at += 1
        return word

    def number(self, lo, hi, what):
        return self.word(lambda w: lo <= w <= hi, what, f"{lo} to {hi}" if lo <= hi else "impossible here: there is none to name")

    def literal(self, above, what):
        rises = f" and above that of {above}" if above else ""
        return self.word(lambda w: abs(above) < abs(w) <= self.n, what, f"a variable 1 to {self.n}{rises}, or its negation")

    def literals(self, what):
        last, found = 0, []
        for _ in range(self.number(0, self.n, f"the length of {what}")):
            last = self.literal(last, f"a literal of {what}")
            found.append(last)
        return found

    def clause_numbers(self, what):
        found = [0]
        for _ in range(self.number(0, self.m, f"the length of {what}")):
            found.append(self.number(found[-1] + 1, self.m, f"a clause number of {what}, which rise,"))
        return found[1:]

    def citation(self, steps, what):
        """Kind and number, where so many steps may be cited."""
        kind = self.number(1, 4, f"the kind of {what}")
        if kind == 2:
            return kind, self.literal(0, f"the literal of {what}")
        return kind, self.number(1, [self.m, 0, PREMISES, steps][kind - 1], f"the {KINDS[kind - 1]} number of {what}")
