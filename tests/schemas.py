"""A small validator: whether a value is as a schema says, with those words of JSON Schema that the schemas here use."""

import json
import re
from collections.abc import Iterator, Mapping
from pathlib import Path
from typing import Any

TYPES: dict[str, type] = {"object": dict, "array": list, "string": str, "integer": int}
WORDS = "type required properties additionalProperties items enum pattern minLength minimum maximum".split()


def schema_of(name: str) -> Any:
    return json.loads(Path(__file__).with_name(f"{name}.schema.json").read_text())


SCHEMA = schema_of("mutation_report")


def of_object(value: Mapping[str, Any], schema: Mapping[str, Any], at: str) -> Iterator[str]:
    yield from (f"{at}: no {name}" for name in schema.get("required", []) if name not in value)
    known, others = schema.get("properties", {}), schema.get("additionalProperties", True)
    for name, inner in value.items():
        if name in known or isinstance(others, dict):
            yield from faults(inner, known.get(name, others), f"{at}/{name}")
        elif not others:
            yield f"{at}: {name} is not known"


def of_scalar(value: Any, schema: Mapping[str, Any], at: str) -> Iterator[str]:
    if "enum" in schema and value not in schema["enum"]:
        yield f"{at}: {value!r} is none of {schema['enum']}"
    if "pattern" in schema and not re.search(schema["pattern"], value):
        yield f"{at}: {value!r} is not of the pattern"
    if len(value) < schema.get("minLength", 0) if isinstance(value, str) else False:
        yield f"{at}: too short"
    if isinstance(value, int) and not schema.get("minimum", value) <= value <= schema.get("maximum", value):
        yield f"{at}: {value} is out of range"


def faults(value: Any, schema: Mapping[str, Any], at: str = "") -> Iterator[str]:
    """What is not as the schema says, with where it is."""
    assert set(schema) <= set(WORDS), schema
    if not isinstance(value, TYPES[schema["type"]]) or isinstance(value, bool):
        yield f"{at}: it is no {schema['type']}"
    elif isinstance(value, dict):
        yield from of_object(value, schema, at)
    elif isinstance(value, list):
        for place, inner in enumerate(value):
            yield from faults(inner, schema["items"], f"{at}/{place}")
    else:
        yield from of_scalar(value, schema, at)


def report_faults(report: Any) -> list[str]:
    """What is wrong with a mutation report: by the schema, and where it names tests or mutants that it has not."""
    found = list(faults(report, SCHEMA))
    if found:
        return found
    tests = [test["id"] for file in report.get("testFiles", {}).values() for test in file["tests"]]
    names = [mutant["id"] for file in report["files"].values() for mutant in file["mutants"]]
    found += ["an id stands twice"] if len({*tests}) < len(tests) or len({*names}) < len(names) else []
    for mutant in (mutant for file in report["files"].values() for mutant in file["mutants"]):
        start, end = (tuple(mutant["location"][key].values()) for key in ("start", "end"))
        killed, covered = set(mutant.get("killedBy", [])), set(mutant.get("coveredBy", []))
        if not start < end or not killed <= covered <= set(tests):
            found.append(f"{mutant['id']}: its place is empty, or its tests are not those of the report")
    return found
