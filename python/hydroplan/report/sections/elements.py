"""The elements of the system, with their limits and what they do."""
from __future__ import annotations

from typing import List, Optional, Sequence

from ..content import ESTIMATED, GIVEN, Block, Column, Section, Table, word_column
from ..shown_study import MISSING, OF_ENERGY, ShownStudy
from ..formats import decimals_for, number
from ..folder import Element

OF_MOMENTS = ("volume", "stored")
LEFT_OUT = ("deficit", "outflow")
LEAST_FIGURES = 4


def elements_section(study: ShownStudy) -> Section:
    """The section of elements: what is given of each, and what it does in a mean year."""
    return Section("elements", "The system", [_given(study), *_done(study)])


def _given(study: ShownStudy) -> Table:
    kept = [it for it in study.summary.elements if it.kind != "bus"]
    rows = [[it.name, it.kind, _where(it), _range(it.minimum), _range(it.maximum), _unit(study, it)] for it in kept]
    heads = ("element", "kind", "where", "least", "greatest", "unit of the limits")
    columns = [Column(head, is_number=head in ("least", "greatest")) for head in heads]
    return Table("Elements", GIVEN, columns, rows, "Where a limit changes from stage to stage, its least and greatest numbers stand here.")


def _where(element: Element) -> str:
    """The bus, and from where to where a line or a pump goes."""
    ways = f"{element.source} to {element.target}" if element.source and element.target else ""
    return ", ".join(it for it in (element.bus, ways) if it) or "–"


def _unit(study: ShownStudy, element: Element) -> str:
    """The unit of an element's limits: of a reservoir a volume, of a battery energy, of a pump a volume, and else power."""
    units = study.summary.units
    if not element.minimum and not element.maximum:
        return "–"
    return {"reservoir": units.volume, "battery": units.energy, "pump": f"{units.volume} a stage"}.get(element.kind, units.power)


def _range(limits: Sequence[Optional[float]]) -> str:
    """The limit, or the least and the greatest one."""
    kept = [it for it in limits if it is not None]
    if not kept:
        return "–"
    decimals = min(3, max(len(f"{it:.6g}".partition(".")[2]) for it in kept))
    return number(kept[0], decimals) if min(kept) == max(kept) else f"{number(min(kept), decimals)} to {number(max(kept), decimals)}"


def _done(study: ShownStudy) -> List[Block]:
    """What the decisions of each element come to, by year: of amounts the sum, of volumes and stores the mean."""
    sums = study.sums
    if sums is None:
        return []
    order = {it.name: place for place, it in enumerate(study.summary.elements)}
    found = [it for it in sums.of_stage if it[1] not in LEFT_OUT and not it[1].startswith(MISSING)]
    found.sort(key=lambda it: order.get(it[0], len(order)))
    rows = []
    for name, quantity in found:
        line = sums.of_stage[name, quantity] / sums.scenarios
        parts = [line[[sums.place_of_stage[it] for it in year.numbers]] for year in study.years]
        values = [float(it.mean() if quantity in OF_MOMENTS else it.sum()) for it in parts]
        unit = study.summary.units.energy if quantity in OF_ENERGY else study.summary.units.volume
        decimals = decimals_for(values, LEAST_FIGURES)
        rows.append([name, quantity.replace("_", " "), unit, *(number(it, decimals) for it in values)])
    columns = [word_column("element"), word_column("what"), word_column("unit"), *(Column(it.name) for it in study.years)]
    note = "Means over scenarios; of volumes and stores the mean over the ends of stages, of all else the sum over the year."
    return [Table("What each element does, by year", ESTIMATED, columns, rows, note, is_folded=len(rows) > 12)]
