"""Answer sets of sheets and of lparse texts, and models of clauses, by clasp and gringo (Debian packages of these names)."""

import shutil
import subprocess
import sys

# As many models as were asked for; no model; all models.
CLASP_STATUS = (10, 20, 30)
# A sheet that is counted has no more answer sets.
MOST_STATES = 65536


def needed():
    if not (shutil.which("clasp") and shutil.which("gringo")):
        sys.exit("clasp and gringo are needed: apt-get install clasp gringo")


def answer_sets(sheet, most=MOST_STATES):
    """The answer sets of a sheet's bytes, each as the rising list of its written atoms; none where there are more than so many."""
    return named_sets(run(["gringo"], "\n".join(asp_rules(sheet)).encode()), most)


def named_sets(ground, most):
    """The answer sets of a program that clasp reads, as gringo's or an lparse text, each as the rising list of N in its names aN; none
    where there are more than so many."""
    lines = run(["clasp", str(most + 1)], ground.encode(), CLASP_STATUS).splitlines()
    sets = [lines[i + 1] for i, line in enumerate(lines) if line.startswith("Answer:")]
    if len(sets) > most:
        return None
    return [sorted(int(atom[1:]) for atom in answer_set.split()) for answer_set in sets]


def asp_rules(sheet):
    at = 5
    for _ in range(sheet[4]):
        length, kind, head, positives = sheet[at : at + 4]
        start, end = at + 4 + positives, at + 1 + length
        body = [f"a{atom}" for atom in sheet[at + 4 : start]] + [f"not a{atom}" for atom in sheet[start:end]]
        yield f"{[f'a{head}', '', f'{{a{head}}}'][kind]} :- {', '.join(body)}."
        at = end


def models(dimacs):
    """The models, each as the rising list of its true variables."""
    lines = run(["clasp", "0"], dimacs.encode(), CLASP_STATUS).splitlines()
    model = []
    for value in (int(value) for line in lines if line.startswith("v") for value in line[1:].split()):
        if value > 0:
            model.append(value)
        elif value == 0:
            yield sorted(model)
            model = []


def cuts(models, atoms):
    """The models cut to the written atoms, each as the rising list of those that are true."""
    return [[variable - 1 for variable in model if variable <= atoms] for model in models]


def run(command, data, status=(0,)):
    done = subprocess.run(command, input=data, stdout=subprocess.PIPE, stderr=subprocess.DEVNULL)
    if done.returncode not in status:
        sys.exit(f"{command[0]} ended with status {done.returncode}")
    return done.stdout.decode()
