"""Runs an image for a second at most, and finds what the run used of its budget."""
from dataclasses import dataclass, replace
from typing import Any, Dict, Optional, Union

from .._contexts import ContextLike
from .._errors import Fault, JtError, NoMemory, Spent
from .._images import Budget, Image

# The seconds of a run.
SECONDS = 1.0
# The fuel of a run that cannot be stopped by the clock: it is spent within about that time.
MOST_FUEL = 2_000_000


@dataclass
class Ended:
    """How a run ended: `used` has the numbers of the budget that are known of it."""

    outcome: Union[str, JtError, TimeoutError]
    used: Dict[str, int]


def run_limited(image: Image, context: ContextLike, budget: Budget) -> Ended:
    """Runs an image once and returns how the run ended.

    # Errors
    `ContextError` for the context, and the other errors of `Image.run` that are not of the run.
    """
    if hasattr(image, "run_report"):
        return _reported(image, context, budget)
    try:
        text = image.run(context, replace(budget, fuel=min(budget.fuel, MOST_FUEL)))
    except (Fault, NoMemory) as error:
        return Ended(error, {})
    except Spent as spent:
        if spent.name == "fuel" and budget.fuel > MOST_FUEL:
            return Ended(TimeoutError(f"the run used more than {MOST_FUEL:,} of fuel"), {})
        return Ended(spent, {spent.name: getattr(budget, spent.name)})
    return Ended(text, {"output": len(text.encode("utf-8", "replace"))})


def _reported(image: Any, context: ContextLike, budget: Budget) -> Ended:
    """Runs an image that reports what a run used."""
    try:
        report = image.run_report(context, budget, timeout=SECONDS)
    except TimeoutError as error:
        return Ended(error, {})
    used: Optional[object] = report.used
    numbers = {name: getattr(used, name, None) for name in ("fuel", "output", "depth")}
    known = {name: number for name, number in numbers.items() if isinstance(number, int)}
    if isinstance(report.outcome, Spent):
        known[report.outcome.name] = getattr(budget, report.outcome.name)
    return Ended(report.outcome, known)
