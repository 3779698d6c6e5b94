"""The arrays of the tests and the bounds of the program: elements that are missing, and elements too many."""

from collections.abc import Mapping, Sequence
from typing import Any

from mutants.english import joined_words
from mutants.jobs.sizes import Bound, bounds_of
from mutants.jobs.sources import Source
from mutants.jobs.tables import Table
from mutants.texts.cards import cards_of
from mutants.texts.dummies import read_unit


def sized_arrays(source: Source, sizes: Mapping[str, int]) -> dict[str, bool]:
    """The arrays whose bounds --size gives; and whether it gives the last bound alone, so that an array with fewer
    elements has those in front."""
    by_array: dict[str, list[Bound]] = {}
    for card in cards_of(source.shown):
        for bound in bounds_of(card.text):
            if bound.array in sizes and bound.is_last or not bound.text.isdecimal():
                by_array.setdefault(bound.array, []).append(bound)
    return {array: all(bound.is_last for bound in bounds) for array, bounds in by_array.items()}


def filled(value: Any, elements: int) -> list[Any]:
    """An array with 0 or .FALSE. for the elements behind its own."""
    values = value if isinstance(value, list) else [value]
    return [*values, *[type(values[0])()] * (elements - len(values))]


def fit(source: Source, table: Table, names: Sequence[str], sizes: Mapping[str, int]) -> list[str]:
    """Fills the arrays of the tests that have fewer elements than --size gives, and makes remarks on that. An array may
    not have more elements than its bounds say, and no N may be above its value."""
    arrays, short = sized_arrays(source, sizes), set[str]()
    for row, test in zip(table.rows, table.tests):
        for place, (name, (_, elements), value) in enumerate(zip(names, read_unit(source.text)[1], test)):
            count = len(value) if isinstance(value, list) else 1
            if name in arrays and elements is not None and count < elements and arrays[name]:
                test[place] = filled(value, elements)
                short.add(name)
            elif name in arrays and elements is not None and count != elements:
                raise ValueError(f"row {row}: {name} has {count} elements, and its bounds with --size take {elements}")
            elif name in sizes and elements is None and isinstance(value, int) and value > sizes[name]:
                raise ValueError(f"row {row}: {name} is {value}, above the {sizes[name]} of --size")
    what = "rows with fewer elements than --size gives have 0 or F for those behind"
    return [f"{what}: {joined_words(sorted(short))}"] if short else []


def sizes_remarks(source: Source, table: Table, names: Sequence[str]) -> list[str]:
    """A sentence on dummy arrays whose size follows from the tests: the one bound is no number, or it is 1, which once
    meant any."""
    bounds = [bound for card in cards_of(source.text) for bound in bounds_of(card.text)]
    is_open = {bound.array for bound in bounds if bound.is_last and not bound.text.isdecimal()}
    is_open -= {bound.array for bound in bounds if not bound.is_last}
    sizes: dict[str, int] = {}
    for place, (name, (_, elements)) in enumerate(zip(names, read_unit(source.text)[1])):
        values = [test[place] for test in table.tests if place < len(test)]
        lengths = {len(value) for value in values if isinstance(value, list)}
        if (elements == 1 or name in is_open) and lengths and lengths != {1}:
            sizes[name] = max(lengths)
    words = ",".join(f"{name}={size}" for name, size in sizes.items())
    remark = f"the tests have more elements than the bounds of {joined_words(sizes)} say: --size {words} follows them"
    return [remark] if sizes else []
