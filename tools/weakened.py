#!/usr/bin/env python3
"""Shows that each layer's contract is needed: tools/weakened.py [--here] [CRATE ..]

A developer's tool, run by hand over the libraries that `.ci/run` kept on this machine. In a copy of the tree below TMPDIR it empties one
clause of a public call, and checks the crates above until one is no longer proved. With --here it works in this tree, over the work that
tools/prove.py kept in the out/ folders, and checks only what the clause changes: that is for kits that keep nothing, in a clone of its own,
since out/ then holds the work of the weaker texts. It prints a table as Markdown, with a row for each layer
of LAYERS or of the named crates. The layer itself must still be proved, since an empty clause can only help it. The status is 0 if each
layer's clause was needed.
"""
import glob, os, pathlib, re, shutil, subprocess, sys, tempfile
from kit import copied, give, keeps, rt

# a layer, the file and the name of its call, and the clause's name, if it has one
LAYERS = [
    ("jt_ids", "src/filter_id.rt", "named", ""),
    ("jt_value", "src/constructors.rt", "as_list", ""),
    ("jt_escape", "src/escaping.rt", "escape_into", "ok"),
    ("jt_ops", "src/operators.rt", "unary", ""),
    ("jt_filters", "src/filters.rt", "apply", ""),
    ("jt_scan", "src/scanner.rt", "scan", "only"),
    ("jt_ast", "src/written.rt", "filter_of", ""),
    ("jt_expr", "src/tag.rt", "expression", "spelled"),
    ("jt_parse", "src/parser.rt", "parse", "spelled"),
    ("jt_graph", "src/ordering.rt", "order", "ordered"),
    ("jt_uses", "src/statements.rt", "uses_of", ""),
    ("jt_chains", "src/layers.rt", "layers", "there"),
    ("jt_names", "src/chains.rt", "facts_of", "chain"),
    ("jt_inherit", "src/linking.rt", "link", "linked"),
    ("jt_inherit", "src/rules.rt", "check_chains", "kept"),
    ("jt_inherit", "src/rules.rt", "check_chains", "only"),
    ("jt_eval", "src/named.rt", "filter_parameters", ""),
    ("jt_checks", "src/checking.rt", "check_rules", "kept"),
    ("jt_semantics", "src/laws.rt", "program_laws", ""),
    ("jt_layout", "src/layout.rt", "lay_out", "namespace_layout"),
    ("jt_bind", "src/resolving.rt", "resolved", ""),
    ("jt_scopes", "src/resolving.rt", "resolve_facts", "resolved"),
    ("jt_constants", "src/laws.rt", "merged_laws", ""),
    ("jt_lower", "src/laws.rt", "low_laws", ""),
    ("jt_codegen", "src/compiling.rt", "compile", "compiled"),
    ("jt_image", "src/assembling.rt", "assemble", "ok"),
    ("jt_verify", "src/verified.rt", "verify", "ok"),
    ("jt_budget", "src/budget.rt", "charge", "err"),
    ("jt_machine", "src/runs.rt", "run", "outcome"),
    ("jt_contexts", "src/contexts.rt", "context_from_json", "ok"),
    ("jt_sessions", "src/sessions.rt", "turn", "turns"),
    ("jt_args", "src/line.rt", "job", "asked"),
    ("jt_host", "src/rendering.rt", "render", "rendered"),
    ("jt_turns", "src/turns.rt", "run", ""),
    ("jt_program", "src/program.rt", "perform", "ends"),
]


def without(text, call, clause):
    """Returns the text with an empty clause in the call's contract, or None if it has no such clause."""
    head = re.search(rf"(?m)^ *pub fn {call}\b", text)
    named = re.compile(rf"(?m)^ *ensures {clause + ' ' if clause else ''}\{{") if head else None
    at = named.search(text, head.start()) if named else None
    if not at:
        return None
    depth, end = 1, at.end()
    while depth:
        depth += {"{": 1, "}": -1}.get(text[end], 0)
        end += 1
    # (the clause stays, so the goals of the call's other clauses keep their names)
    return f"{text[: at.end()]} Prim.Unit {{0}} }}{text[end:]}"


def unanswered(text, clause):
    """Returns the text of an Answers.antt without the answers for the clause at the call's returns."""
    of_clause = f"-clause-{clause}" if clause else ""
    return re.sub(rf"(?ms)^pub returns\S*{of_clause} :.*?(?=^pub |\Z)", "", text)


def first_goal(crate, here):
    """Checks the crate, and builds its library; returns whether it is proved, and the first goal that is not."""
    verb, more = ("build", ["-o", crate.rlib]) if crate.makes_rlib() else ("check", [])
    flags = crate.words(["--jobs", "2"], keeps=here)
    # (over kept work the library is built as tools/prove.py builds it)
    more += ["--incremental", "out/incremental"] if here else ["--statements"] if more else []
    words = [*rt.rtlib.guarded(), rt.rtlib.RATTLE, verb, *flags, *more]
    how = {"cwd": crate.folder, "stdin": subprocess.DEVNULL, "stdout": subprocess.PIPE, "stderr": subprocess.STDOUT, "errors": "replace"}
    ran = subprocess.run(words, **how)
    open_goal = re.search(r"(?m)^fn (\S+): not proved", ran.stdout)
    return ran.returncode == 0, open_goal[1] if open_goal else "a lemma"


def row(root, here, layer, file, call, clause):
    """Returns the table's row of a layer, and whether its clause was needed."""
    place = f"{root}/crates/{layer}/{file}"
    text = rt.rtlib.text_of(place)
    weaker = without(text, call, clause)
    said = f"| {layer} | `{call}`{f', `{clause}`' if clause else ''} |"
    if weaker is None:
        return f"{said} has no such clause |", False
    texts = {place: (text, weaker)}
    # (the answers of a method are in the folder of its type)
    at = [f"{root}/crates/{layer}/proofs/{it}**/{call}/Answers.antt" for it in (f"{file[4:-3]}/", "")]
    for answers in glob.glob(at[0], recursive=True) or glob.glob(at[1], recursive=True):
        was = rt.rtlib.text_of(answers)
        texts[answers] = (was, unanswered(was, clause))
    try:
        for path, (_, now) in texts.items():
            pathlib.Path(path).write_text(now, encoding="utf-8")
        return missed(root, here, layer, said)
    finally:
        for path, (was, _) in texts.items():
            pathlib.Path(path).write_text(was, encoding="utf-8")


def set_apart(crate):
    """Moves the crate's kept library away, so that the crate has none."""
    if os.path.isdir(f"{crate.folder}/out"):
        os.rename(f"{crate.folder}/out", f"{crate.folder}/kept")
    os.makedirs(f"{crate.folder}/out/rlib")


def put_back(crates):
    """Restores the crates' libraries as they were before a row."""
    for crate in crates:
        shutil.rmtree(f"{crate.folder}/out")
        if os.path.isdir(f"{crate.folder}/kept"):
            os.rename(f"{crate.folder}/kept", f"{crate.folder}/out")


def missed(root, here, layer, said):
    """Checks the crates above the layer, from the lowest, until one is not proved."""
    apart = []
    try:
        weaker = {layer}
        for crate in rt.rtlib.crates_below(root):
            crate.out = sys.stderr
            if crate.name != layer and not weaker & {it.name for it in crate.deps}:
                continue
            if not here:
                set_apart(crate)
                apart.append(crate)
            proved, goal = first_goal(crate, here)
            if not proved:
                return (f"{said} {crate.name}: `{goal}` |", True) if crate.name != layer else (f"{said} not proved itself |", False)
            weaker.add(crate.name)
        return f"{said} **none** |", False
    finally:
        put_back(apart)


def rows(root, here, layers):
    """Prints the table, and returns whether each clause was needed."""
    print("| Layer | Call and clause | The first crate above that is not proved without it |\n|---|---|---|")
    answers = []
    for layer in layers:
        line, well = row(root, here, *layer)
        print(line, flush=True)
        answers.append(well)
    return bool(layers) and all(answers)


def main(*words):
    here, names = "--here" in words, [it for it in words if it != "--here"]
    layers = [it for it in LAYERS if not names or it[0] in names]
    if here:
        return 0 if rows(os.getcwd(), True, layers) else 1
    if not keeps():
        print("this kit keeps nothing of what rt ci proved: tools/prove.py, and then --here in a clone", file=sys.stderr)
        return 2
    with tempfile.TemporaryDirectory(prefix="weakened-") as room:
        copied(room)
        lacking = give(room, lambda crate: True)
        if lacking:
            print(f"{lacking} is not kept as it stands: .ci/run makes it", file=sys.stderr)
            return 2
        return 0 if rows(room, False, layers) else 1


if __name__ == "__main__":
    rt.rtlib.guarded()
    sys.exit(main(*sys.argv[1:]))
