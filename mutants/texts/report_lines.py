"""The text of a report, as mothra writes it, made from its value. A report that was read is written back byte for
byte."""

from mutants.texts.reports import VERSION, Report, name_of, sum_lines


def report_text(report: Report) -> str:
    lines = [VERSION, f"UNIT {report.unit}", f"TESTS {report.tests}", f"STEPS {report.steps}", f"EVERY {report.every}"]
    lines += [f"{op} {count.total} {count.killed} {count.equivalent}" for op, count in report.counts.items()]
    lines += sum_lines(report.counts.values())
    lines += [f"MUTANT {name_of(row)} {row.status} {row.bits or '-'}" for row in report.rows]
    lines += [f"SURVIVOR {name_of(mutant)} LINE {mutant.line} {mutant.text}" for mutant in report.survivors]
    lines += [f"WRONG {name_of(row)}" for row in report.rows if row.status == "W"]
    return "".join(f"{line}\n" for line in [*lines, "END"])
