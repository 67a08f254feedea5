"""Edits a plan at a terminal, or by lines of standard input, and asks about it as it stands.

Each edit is on the disk, in a file beside the plan, before it is answered: whatever happens, the same call goes on where it was. A line
that is refused is told why, and leaves all as it stood. At the end, and before 'go', the plan with its edits is written to a file of its
own, with the remarks, the lines 'between' and the names of the plan; the file of the plan itself is never written. A file whose name
ends in .json is written as a JSON document.

  edits      add point NAME, add bound NAME FROM TO MOST,
             add between NAME FROM LOW HIGH TO, add link FROM LOW HIGH TO,
             set bound NAME MOST, set between NAME LOW HIGH, set link TO LOW HIGH,
             set delay N,
             drop point NAME, drop bound NAME, drop between NAME, drop link TO
  questions  verdict, proof, table, report, plan,
             deadline FROM TO, play DAY, strong
  besides    undo (takes the last edit back), write [FILE], go (begins the day),
             help, end
"""

from planner.commands import day
from planner.desk_session import QUESTIONS, Desk
from planner.drawing.scale import scale_of
from planner.faults import Fault, Status, say, told_by_system
from planner.journal import UNDO, beside
from planner.kept import add_words as add_shared
from planner.kept import journal_of, plan_of, write_own
from planner.mended import Refused
from planner.options import add_clock
from planner.output import hand_on, tell
from planner.plan import DOCUMENT, STANDARD_INPUT, TEXT, source_of
from planner.slips import EDITS, slip_of_call, slip_of_edit, slip_of_word, without_line
from planner.typed import complete_by, is_terminal, typed

EXAMPLE = """
  planner edit examples/rover/plan.stnu --lines tomorrow.edits --out tomorrow.stnu
  printf '%s\\n' 'set bound still-warm 50' verdict | planner edit examples/rover/plan.stnu --lines tomorrow.edits --out tomorrow.stnu"""

ENDING = ".edits"
# Questions that a call answers of the plan as it stands.
CALLS = ("deadline", "play", "strong")
VERDICTS = {"controllable": "the plan can be kept", "not controllable": "the plan cannot be kept: 'proof' says why"}
# What a session cannot say of an edit that it does not have.
NO_REPORT = "nothing to report: 'set delay' has begun the session anew, so that all is derived again"
# Words that somebody may type for others.
ALIKE = {"show": "plan", "print": "plan", "check": "verdict"}
KINDS = ("point", "bound", "between", "link", "delay")
WORDS = (*EDITS, *QUESTIONS, "plan", *CALLS, UNDO, "write", "go", "help", "end")


def add_words(parser):
    add_shared(parser, ENDING)
    out_help = "the file for the plan with its edits (beside the plan, with the ending .edited.stnu, or .edited.json for a document)"
    parser.add_argument("--out", metavar="FILE", help=out_help)
    add_clock(parser, "of the day after 'go': ")


def run(args):
    # (a clock that is none is told before anything is typed)
    scale_of(args.clock)
    source = plan_of(args)
    journal = journal_of(args, "edit", ENDING, source)
    editing = Editing(args, Desk(args.program, source), journal)
    editing.play_again()
    complete_by(lambda: [*WORDS, *KINDS, *editing.desk.draft.all_names()])
    for line in typed():
        if line.strip().lower() == "go":
            if editing.is_ready():
                return editing.go()
        else:
            editing.take(line)
    return editing.end()


class Editing:
    """A session in which lines are taken as they are typed."""

    def __init__(self, args, desk, journal):
        self.args, self.desk, self.journal = args, desk, journal
        self.refused = Refused(lambda: self.desk.draft.all_names())

    def play_again(self):
        lines = self.journal.kept()
        if lines:
            say(f"{self.journal.path}: {len(lines)} edit{'' if len(lines) == 1 else 's'} played again")
        self.played(lines)

    def played(self, lines):
        for line, said in self.desk.play(lines):
            self.refused.refuse(line)
            say(f"{self.journal.path}: '{line}' is refused now, and is not in the plan: {self.told(line.split(), said.last)}")

    def told(self, words, said):
        slip = slip_of_edit(words, said, self.desk.draft)
        return f"the program says: {without_line(said)}" + (f"; {slip}" if slip else "")

    def take(self, line):
        words = line.split()
        if not words:
            return
        if words[0].startswith("#"):
            self.keep(line)
            return
        word = ALIKE.get(words[0].lower(), words[0].lower())
        if word in EDITS:
            self.edit([word, *(it.lower() for it in words[1:2]), *words[2:]])
        elif word == UNDO and not words[1:]:
            self.undo()
        elif word in WORDS:
            self.ask([word, *words[1:]])
        else:
            self.refuse(line, slip_of_word(words[0], WORDS))

    def edit(self, words):
        line = " ".join(words)
        said = self.desk.take(line)
        if not said.is_made:
            self.refuse(line, self.told(words, said.last))
        elif self.keep(line):
            self.answer(line, said.lines)
        else:
            self.desk.play(self.desk.lines[:-1])

    def undo(self):
        lines = self.journal.kept()
        if not lines:
            self.refuse(UNDO, "there is no edit to take back")
        elif self.keep(UNDO):
            self.played(lines[:-1])
            self.answer(UNDO, [f"taken back: {lines[-1]}"])

    def keep(self, line):
        """Keeps a line in the journal; whether it is on the disk."""
        try:
            self.journal.keep(line)
        except OSError as why:
            self.refuse(line, f"it could not be kept, {told_by_system(why)}; all stands as before")
            return False
        return True

    def ask(self, words):
        line = " ".join(words)
        match words:
            case ["help"]:
                self.answer(line, __doc__.split("\n\n", 2)[2].rstrip().split("\n"))
            case ["plan"]:
                self.answer(line, [it.text for it in self.desk.draft.lines])
            case ["write"]:
                self.write(self.out(), line)
            case ["write", path]:
                self.write(path, line)
            case ["verdict"]:
                said = self.desk.ask(line)
                self.answer(line, [VERDICTS.get(said[0], said[0])])
            case ["report"] if self.desk.is_begun_anew():
                self.answer(line, [NO_REPORT])
            case [word] if word in QUESTIONS:
                self.answer(line, self.desk.ask(line))
            case [word, *_] if word in CALLS:
                self.call(words)
            case _:
                self.refuse(line, f"no words stand after '{words[0]}'")

    def call(self, words):
        """Asks the program about the plan as it stands, and prints all but certificates."""
        said = self.args.program.call(words, self.desk.draft.source())
        if said.is_refused:
            self.refuse(" ".join(words), slip_of_call(words, said.first, self.desk.draft))
            return
        certificate = said.lines.index("certificate 1") if "certificate 1" in said.lines else len(said.lines)
        self.answer(" ".join(words), said.lines[:certificate])

    def answer(self, line, lines):
        self.refused.take(line, is_question=line.split()[0] not in EDITS)
        if self.args.json:
            hand_on({"line": line, "taken": True, "answer": lines})
        else:
            for said in lines:
                tell(said)

    def refuse(self, line, why):
        self.refused.refuse(line)
        if self.args.json:
            hand_on({"line": line, "taken": False, "answer": [why]})
        else:
            say(f"'{line}' is not taken: {why}")

    def out(self):
        if self.args.out is None and self.args.plan == STANDARD_INPUT:
            raise Fault("name a file for the plan with its edits by --out")
        return self.args.out or beside(self.args.plan, f".edited{DOCUMENT if self.desk.is_document else TEXT}")

    def write(self, path, line="write"):
        """Writes the plan as it stands, once the program has read its text as the plan that the session has. Whether it is written.

        `line` is what was typed, by which it is told if it is not.
        """
        text = self.desk.draft.written(path)
        if not self.desk.is_as_the_session_has_it(source_of(text, STANDARD_INPUT)):
            raise Fault("the program reads the text with its edits as another plan than that of its session", Status.DEFECT)
        try:
            write_own(path, text, self.journal, self.args.plan)
        except OSError as why:
            self.refuse(line, f"the plan could not be written, {told_by_system(why)}; its edits are in {self.journal.path}")
        except Fault as why:
            self.refuse(line, str(why) if line == f"write {path}" else f"{why} by --out")
        else:
            self.refused.take(line, is_question=True)
            return True
        return False

    def is_ready(self):
        """Whether the day can begin: the plan as it stands can be kept, and is written."""
        if self.desk.ask("verdict") != ["controllable"]:
            self.refuse("go", VERDICTS["not controllable"])
            return False
        return self.write(self.out(), "go")

    def go(self):
        """Goes on with the day of the plan that was written."""
        self.refused.take("go")
        self.close()
        return day.run(day.words_of_call(self.args, str(self.out()))) or self.status()

    def end(self):
        is_written = not self.journal.kept() or self.write(self.out())
        self.close()
        return self.status() if is_written else Status.WRITE

    def status(self):
        """Whether a line was refused, where nobody at a terminal saw it."""
        return Status.EVENT if self.refused and not is_terminal() else Status.KEPT

    def close(self):
        self.desk.talk.show()
        self.desk.close()
        self.journal.close()
