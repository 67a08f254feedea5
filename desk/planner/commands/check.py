"""Says whether a plan can be kept whatever nature does.

--proof keeps the certificate, a proof or a refutation, in a file. --judge has a certificate of a file judged, whoever made it: then nothing
is decided anew, and the status is that of what the certificate shows. One that is refused shows nothing: that is told with its line and the
reason, and the status is 1.
"""

from planner.explain import refusal, said_by
from planner.faults import Fault, Status, hint, told_by_system
from planner.kept import spare, write_whole
from planner.options import add_plan
from planner.output import hand_on, tell
from planner.plan import STANDARD_INPUT, load
from planner.refused import Certificate, refusal_of
from planner.slips import without_line

EXAMPLE = """
  planner check examples/rover/plan.stnu
  planner check examples/rover/variant.stnu --proof refutation.cert
  planner check examples/rover/variant.stnu --judge refutation.cert"""

SHOWN = {"accepted controllable": Status.KEPT, "accepted not controllable": Status.NOT_KEPT}


def add_words(parser):
    add_plan(parser)
    files = parser.add_mutually_exclusive_group()
    files.add_argument("--proof", metavar="FILE", help="write the certificate, a proof or a refutation, to this file")
    files.add_argument("--judge", metavar="FILE", help="have the certificate of this file judged")


def run(args):
    source = load(args.plan, args.delay)
    if args.judge:
        return judged(args, source)
    if args.proof:
        spare(args.proof, args.plan)
    answer = args.program.call(["check", *(["--proof"] if args.proof else [])], source)
    if answer.is_refused:
        raise refusal(source, answer, args.plan)
    if args.proof:
        write(args.proof, "".join(f"{line}\n" for line in answer.certificate()))
    if args.json:
        hand_on({"plan": args.plan, "answer": answer.first, "certificate": args.proof})
    else:
        tell("the plan can be kept" if answer.is_kept else "the plan cannot be kept")
    if not answer.is_kept:
        hint("'planner why' tells why, and 'planner repair' what can be changed")
    return Status(answer.status)


def write(path, text):
    try:
        write_whole(path, text)
    except OSError as why:
        raise Fault(told_by_system(why), Status.WRITE) from why


def judged(args, source):
    """Has a certificate judged, with the verdict above it or without."""
    if args.judge == args.plan == STANDARD_INPUT:
        raise Fault("standard input is either the plan or the certificate: name a file for one of them")
    shown = args.program.call(["show"], source.with_delay(None), is_shown=False)
    if shown.is_refused:
        raise refusal(source, shown, args.plan)
    certificate = Certificate.of(args.judge)
    answer = args.program.call(["judge"], source, certificate.source)
    if answer.first not in SHOWN:
        return refused(args, answer, refusal_of(said_by(answer), source, certificate))
    status = SHOWN[answer.first]
    if args.json:
        hand_on({"plan": args.plan, "answer": answer.first, "certificate": args.judge})
    else:
        tell(f"the certificate shows that the plan {'can' if status == Status.KEPT else 'cannot'} be kept")
    return status


def refused(args, answer, why):
    """Tells why a certificate is refused. One that is no certificate is at fault itself."""
    if answer.status != Status.NOT_KEPT:
        raise Fault(f"{why}\nthe program says: {without_line(said_by(answer))}", answer.status)
    if args.json:
        told = {"line": why.line, "why": why.why}
        hand_on({"plan": args.plan, "answer": answer.first, "certificate": args.judge, **told})
    else:
        tell(f"the certificate shows nothing; the program says: {answer.first}")
        tell(str(why))
    return Status.NOT_KEPT
