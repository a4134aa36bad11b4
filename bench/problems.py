"""The ground problems of a source as files in the DIMACS form, from what `ql_measure problems` prints."""
import pathlib
import subprocess

PROGRAM = pathlib.Path(__file__).resolve().parent.parent / "crates/ql_measure/out/ql_measure"


def write_list(path, variables, clauses):
    path.write_text("\n".join([f"p cnf {variables} {len(clauses)}"] + clauses) + "\n")


def write_problems(source, folder):
    """Writes a file for each goal at each level, and returns the paths."""
    run = subprocess.run([PROGRAM, "problems", "--clauses", source], capture_output=True, text=True, check=True)
    paths = []
    for k, (variables, clauses) in enumerate(problems_of(run.stdout)):
        path = pathlib.Path(folder) / f"{source.name}-{k}.cnf"
        write_list(path, variables, clauses)
        paths.append(path)
    return paths


def problems_of(listing):
    """The count of variables and the clauses of each problem."""
    problems = []
    for line in listing.splitlines()[1:]:
        if " variables, " in line:
            problems.append((int(line.split(": ")[1].split()[0]), []))
        else:
            problems[-1][1].append(line)
    return problems
