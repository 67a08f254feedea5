"""Plans in which nature decides some durations: decided, certified, judged and executed in this process.

    >>> import stnu
    >>> plan = stnu.Plan.read("plan.stnu")
    >>> bool(stnu.check(plan))
    True
    >>> with stnu.Execution(plan) as day:
    ...     day.at(0)
    ...     day.at(128, "arrive")
    [Act(moment=0, point='sunrise')]

A plan is a `Plan`, or a text of it, a JSON document of it, or the path of a file with one of these. What is refused is raised as
a `Fault` with the line, the word, and what is known of it. Each call may be made in any thread; one run is used by one thread at
a time. While the library works other threads go on. docs/LIBRARY.md tells what is proved of it; `made()` how this copy was made.
"""

from ._library import Answer, Closed, Run, Status, made, run, version
from .faults import EditRefused, EventRefused, Fault, InputFault, LimitPassed, NotControllable, Stopped, WordsRefused
from .plans import Bound, Link, Plan, PlanLike, between
from .questions import Deadline, Judgement, Refutation, Verdict, check, deadline, judge, play, strong, why
from .talks import Act, After, Execution, Fleet, Report, Session, Wait

__version__ = version()
__all__ = [
    *("Act", "After", "Answer", "Bound", "Closed", "Deadline", "EditRefused", "EventRefused", "Execution", "Fault", "Fleet"),
    *("InputFault", "Judgement", "LimitPassed", "Link", "NotControllable", "Plan", "PlanLike", "Refutation", "Report", "Run"),
    *("Session", "Status", "Stopped", "Verdict", "Wait", "WordsRefused", "between", "check", "deadline", "judge", "made", "play"),
    *("run", "strong", "version", "why"),
]
