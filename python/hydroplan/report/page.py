"""The page: its sections, what the study is in plain words with three questions at the top, and its text by templates."""
from __future__ import annotations

from collections import Counter
from functools import lru_cache
from pathlib import Path
from typing import Any, List, Optional, Sequence

from ..tables import package
from .content import CERTIFIED, ESTIMATED, Answer, Paragraph, Section
from .folder import shown_name
from .formats import decimals_for, number, share
from .sections.cost import bound_text, cost_section, cost_unit, making_section, mean_text
from .sections.shortage import dry_years_section, missing_section, weather_unit
from .sections.elements import elements_section
from .sections.energy import energy_section, prices_section
from .sections.water import headline_stages, lakes_section, names_of, total_limit, total_quantiles, value_unit, water_section, worths_of
from .shown_study import NEAR_EMPTY, ShownStudy

PLURALS = {"bus": "buses", "battery": "batteries"}


def in_short(study: ShownStudy) -> List[Paragraph]:
    """What the study is, between what its cost lies, and how sure that is."""
    return [Paragraph(it) for it in (_what_it_is(study), _what_it_costs(study), _how_sure(study)) if it]


def _what_it_is(study: ShownStudy) -> str:
    summary = study.summary
    kinds = Counter(it.kind for it in summary.elements)
    parts = [f"{count} {_plural(kind, count)}" for kind, count in kinds.items() if kind and kind != "bus"]
    buses = f"{len(summary.buses)} {_plural('bus', len(summary.buses))}" if summary.buses else ""
    system = " and ".join(it for it in (", ".join(parts), f"{buses}" if buses else "") if it)
    first, last = summary.stages[0], summary.stages[-1]
    return f"This study plans {system or 'a system'} over {len(summary.stages)} stages, from {first.name} to {last.name}."


def _plural(kind: str, count: int) -> str:
    return kind if count == 1 else PLURALS.get(kind, f"{kind}s")


def _what_it_costs(study: ShownStudy) -> str:
    summary, unit = study.summary, cost_unit(study).name
    parts = []
    if summary.bound is not None:
        parts.append(f"No plan has an expected cost below {bound_text(study)} {unit}: that is certified.")
    if summary.estimate is not None:
        sure = "" if summary.estimate.half_width is None else f", with {share(summary.estimate.confidence)} confidence"
        found = f"The plan that was found costs {mean_text(study)} {unit} on average{sure}"
        parts.append(f"{found}: that is estimated from {summary.estimate.scenarios:,} scenarios.")
    return " ".join(parts)


def _how_sure(study: ShownStudy) -> str:
    summary, estimate = study.summary, study.summary.estimate
    if estimate is None or summary.bound is None:
        return ""
    if estimate.mean + (estimate.half_width or 0.0) < summary.bound:
        return "The scenarios happened to cost less than the bound, also with their interval: more of them would bring the mean above it."
    most = estimate.mean + (estimate.half_width or 0.0) - summary.bound
    unit = cost_unit(study)
    saved = number(unit.of(most), decimals_for([unit.of(most)]))
    part = f" ({100 * most / abs(summary.bound):.2f} per cent of the bound)" if summary.bound else ""
    return f"So the best of all plans is cheaper than this one by at most {saved} {unit.name}{part}, with that confidence."


def answers_of(study: ShownStudy) -> List[Answer]:
    """The three questions, each with a short answer and a few words."""
    return [it for it in (_cost(study), _lake(study), _water(study), _dry(study)) if it is not None]


def _cost(study: ShownStudy) -> Optional[Answer]:
    if study.summary.bound is None:
        return None
    words = f"{mean_text(study)} on average over scenarios (≈ estimated)." if study.summary.estimate else ""
    return Answer("What does it cost at least?", f"{bound_text(study)} {cost_unit(study).name}", words, CERTIFIED, "cost")


def _lake(study: ShownStudy) -> Optional[Answer]:
    found, sums = total_quantiles(study), study.sums
    if found is None or sums is None:
        return None
    stages, limit, median = study.summary.stages, total_limit(study), [float(it) for it in found["p50"]]
    lowest = median.index(min(median))
    filled = ""
    if limit is not None and max(limit[1]) > min(limit[0]):
        filled = f" ({share((median[lowest] - min(limit[0])) / (max(limit[1]) - min(limit[0])))} of their range)"
    words = f"All lakes together are lowest then, {median[lowest]:,.0f} {study.summary.units.volume} in the median{filled}. {_near_empty(study)}"
    return Answer("When does the lake empty?", f"End of {stages[lowest].name}", words, ESTIMATED, "lakes")


def _near_empty(study: ShownStudy) -> str:
    """How often the largest lake is near empty, and when most often."""
    sums = study.sums
    assert sums is not None
    name = largest_lake(study, list(sums.near_empty))
    counts = sums.near_empty[name]
    if not counts.any():
        return f"The largest one, {name}, never comes within {100 * NEAR_EMPTY:.0f} per cent of its least volume."
    when = study.summary.stages[int(counts.argmax())].name
    return f"The largest one, {name}, is near empty in at most {share(float(counts.max()) / sums.scenarios)} of scenarios, at the end of {when}."


def largest_lake(study: ShownStudy, names: Sequence[str]) -> str:
    """The name of the reservoir with the greatest volume allowed."""
    return max(names, key=lambda name: max(_greatest_volumes(study, name), default=0.0))


def _water(study: ShownStudy) -> Optional[Answer]:
    values = study.table("water_values")
    if values is None:
        return None
    names = names_of(study, values)
    largest = largest_lake(study, names)
    worths = worths_of(values, largest, headline_stages(study))
    if not worths:
        return None
    unit = value_unit(study)
    decimals = decimals_for([unit.of(it) for worth in worths for it in worth.values], 3)
    first = worths[0]
    low, middle, high = (number(unit.of(it), decimals) for it in first.values)
    later = ", ".join(f"{number(unit.of(it.values[1]), decimals)} in {it.stage.name}" for it in worths[1:])
    month = "March" if first.stage.start.month == 3 else first.stage.name
    words = f"In {largest}, the largest lake, at the middle volume in {first.stage.name}; {low} when it is low, {high} when it is high."
    words += f" Later {later}." if later else ""
    return Answer(f"What is water worth in {month}?", f"{middle} {unit.name}", words, ESTIMATED, "water")


def _greatest_volumes(study: ShownStudy, name: str) -> List[float]:
    """The greatest volumes of a reservoir, where they are given."""
    element = study.summary.store(name)
    return [] if element is None else [it for it in element.maximum if it is not None]


def _dry(study: ShownStudy) -> Optional[Answer]:
    known = [it for it in study.weather if it.cost_onwards is not None and it.year in study.whole_years()]
    if not known:
        return None
    weather, unit = known[0], weather_unit(study)
    assert weather.cost_onwards is not None
    mean = float(weather.cost_onwards.mean())
    dry, wet = (unit.of(float(weather.cost_onwards[it].mean()) - mean) for it in (weather.driest, weather.wettest))
    decimals = decimals_for([dry, wet], 3)
    it_costs = "it and what comes after costs" if len(study.weather) > 1 else "it costs"
    of_dry, of_wet = ("less" if it < 0 else "more" for it in (dry, wet))
    words = (
        f"Where {weather.year.name} is among the driest tenth, {it_costs} so much {of_dry} than the mean, {number(unit.of(mean), decimals)}; "
        f"where it is among the wettest tenth, {number(abs(wet), decimals)} {of_wet}."
    )
    answer = f"{number(abs(dry), decimals)} {unit.name} {of_dry}"
    return Answer("What does a dry year cost?", answer, words, ESTIMATED, "dry")


TEMPLATES = Path(__file__).parent / "templates"
SECTIONS = (
    cost_section, lakes_section, water_section, dry_years_section, energy_section, prices_section, missing_section, elements_section,
    making_section,
)
MARK_SIGNS = {"certified": "◆", "estimated": "≈", "given": "▸", "both": "◆≈"}
MARK_WORDS = {"certified": "certified", "estimated": "estimated", "given": "given", "both": "certified and estimated"}


def page_text(study: ShownStudy) -> str:
    """The page as HTML. MissingPackage where jinja2 is not there."""
    sections: List[Section] = [it(study) for it in SECTIONS]
    words = {
        "summary": study.summary, "sections": sections, "answers": answers_of(study), "short": in_short(study),
        "signs": MARK_SIGNS, "marks": MARK_WORDS, "style": (TEMPLATES / "style.css").read_text(encoding="utf-8"),
    }
    text: str = _environment().get_template("page.html").render(words)
    return text


@lru_cache(maxsize=None)
def _environment() -> Any:
    """Templates whose every value is escaped, for HTML and for characters that are not shown."""
    jinja2 = package("jinja2")
    return jinja2.Environment(
        loader=jinja2.FileSystemLoader(str(TEMPLATES)), autoescape=True, finalize=_finalized, undefined=jinja2.StrictUndefined,
        trim_blocks=True, lstrip_blocks=True,
    )


def _finalized(value: Optional[object]) -> object:
    """Each text with what is not shown as escapes; markup is the templates' own and is left as it is."""
    return shown_name(value) if type(value) is str else value
