#!/usr/bin/env python3
"""files.py [CRATE]: what the one form changes in each crate, file by file, with lines as they stand: the table of `docs/ONE-FORM.md`. With CRATE it lists the
crate's files. A file that names a definition of programs and stands in no list below is `by name`; one that names none `stays`."""
import collections
import os
import re
import sys

TOP = os.path.join(os.path.dirname(os.path.abspath(__file__)), "..", "..", "crates")
CRATES = ("gib_syntax gib_reads gib_parse gib_check gib_mono gib_core gib_infer gib_place gib_access gib_forks gib_plain gib_gen gib_local_parse gib_local "
          "gib_local_print gib_app gib_located gib_tests").split()
# What names a definition of programs: modules of gib_syntax, beside names in them that stay.
CHANGED = ("Tree Typing Fine Arena ArenaLaws Parts Plain Single Inferred GenericTree GenericTyping GenericFine GenericMeaning GenericArena GenericLaws "
           "GenericParts").split()
VALUES = set("""Reason Deep Trap Outcome Gives Stops Environment value_in bind with_value with_values with_fields number_in is_true is_made_by parts tuple
bind_results operate is_by_zero outcome_unless outcome made choose HasResults OutcomeGives OutcomeHas is_scalar at_fields scalar_types tree_types number_of
next_place place_of AreDifferent tree_type type_or constructor_names constructor_named one_type""".split())
# What texts that write their places out keep: types and declarations without type variables.
LOCATED = set("""DataTree ConstructorTree HasConstructor IsKnown HasKnownType HasKnownFields HasKnownConstructors names_of types_of constructor_tree data_tree
type_written type_of_name row_in rows_from type_names""".split())
LISTS = {
    "gib_syntax": {
        "by form": "src/examples.rt src/law.rt src/print.rt src/tree.rt specs/Declarations.antt specs/GenericMeaning.antt specs/Meaning.antt specs/Printing.antt specs/Tree.antt",
        "anew": "proofs/Depth.antt proofs/Soundness.antt",
        "goes": "src/exprs.rt proofs/Commas.antt proofs/Layers.antt proofs/SingleMeaning.antt proofs/law/commas_make_parts/Answers.antt "
                "proofs/law/types_order_tuples_alone/Answers.antt specs/Arena.antt specs/ArenaLaws.antt specs/Fine.antt specs/Parts.antt specs/Plain.antt "
                "specs/Single.antt specs/Typing.antt",
    },
    "gib_check": {
        "by form": "src/declared.rt src/functions.rt src/generic.rt src/tables.rt src/typed.rt proofs/Knowing.antt proofs/Making.antt proofs/Numbering.antt "
                   "proofs/Passing.antt proofs/TypedTables.antt proofs/declared/Declared/function_id/Answers.antt proofs/declared/Declared/head/Answers.antt "
                   "proofs/node_facts/node_arms/Answers.antt proofs/tables/*/*.antt proofs/typed/Typed/*/Answers.antt specs/ArmPlaces.antt specs/Checked.antt "
                   "specs/Functions.antt specs/Views.antt",
        "anew": "src/node_facts.rt src/origin.rt proofs/Had.antt proofs/PlainRows.antt proofs/RowRules.antt proofs/node_facts/outside_parts/*.antt specs/NodeFacts.antt "
                "specs/Origins.antt",
    },
    "gib_mono": {
        "by form": "src/copier.rt src/copying.rt src/declaring.rt proofs/Apart.antt proofs/Asking.antt proofs/Counts.antt proofs/Declarations.antt proofs/Ending.antt "
                   "proofs/Fine.antt proofs/Here.antt proofs/Making.antt proofs/Showing.antt proofs/Tables.antt proofs/TextsApart.antt proofs/copying/+copy/*.antt "
                   "proofs/declaring/copy_main/Answers.antt proofs/declaring/copy_parts/Answers.antt proofs/declaring/copy_results/Answers.antt specs/Copied.antt "
                   "specs/Copying.antt specs/Declaring.antt specs/Laws.antt specs/Made.antt specs/Walk.antt",
        "anew": "src/law.rt src/program_copy.rt proofs/Covering.antt proofs/Meaning.antt proofs/Running.antt proofs/Scopes.antt proofs/Theorem.antt proofs/Typing.antt "
                "proofs/Whole.antt proofs/program_copy/copy_asked/Answers.antt proofs/program_copy/mono/Answers.antt",
        "goes": "src/binding.rt src/plain.rt src/plain_names.rt proofs/Bared.antt proofs/Baring.antt proofs/Bindings.antt proofs/Own*.antt proofs/Plains.antt "
                "proofs/Written.antt proofs/plain/*/*.antt proofs/plain_names/*/*.antt proofs/program_copy/copy_plain/Answers.antt specs/Bare.antt specs/Bindings.antt "
                "specs/Placed.antt",
    },
    "gib_core": {
        "by form": "src/examples.rt src/law.rt proofs/Maps.antt specs/Erasing.antt specs/Inferring.antt specs/Ordered.antt specs/SamplePrograms.antt",
        "anew": "proofs/Erases.antt proofs/Left.antt",
    },
    "gib_infer": {
        "by form": "src/names.rt src/walk.rt proofs/Numbered.antt proofs/Ordered.antt proofs/Programs.antt proofs/Reachability.antt proofs/TypesKnown.antt "
                   "proofs/walk/+infer/*.antt",
        "anew": "src/parts.rt proofs/Left.antt proofs/Parting.antt proofs/Same.antt proofs/Whole.antt proofs/parts/*/*.antt",
    },
    "gib_place": {"by form": "proofs/Erased.antt proofs/Renames.antt specs/SameSource.antt"},
    "gib_access": {"by form": "proofs/Reaches.antt"},
    "gib_plain": {
        "by form": "src/lookup.rt proofs/Moves.antt proofs/Names.antt proofs/Steps.antt proofs/lookup/next_part/Answers.antt proofs/machine/Machine/bind_one/Answers.antt "
                   "proofs/machine/Machine/bind_two/Answers.antt proofs/machine/Machine/call/Answers.antt proofs/machine/Machine/enter/Answers.antt "
                   "proofs/machine/Machine/finish/Answers.antt proofs/machine/Machine/finish_call/Answers.antt proofs/machine/Machine/go_on/Answers.antt "
                   "proofs/stack/push_parts/Answers.antt proofs/stack/push_results/Answers.antt",
        "anew": "src/machine.rt proofs/Runs.antt proofs/lookup/push_types/Invariants.antt proofs/machine/Machine/build_tuple/Answers.antt "
                "proofs/machine/Machine/go_on_tuple/Answers.antt specs/Running.antt",
    },
    "gib_gen": {"by form": "proofs/Named.antt proofs/Program.antt proofs/Works.antt", "anew": "proofs/ProgramTyped.antt"},
    "gib_local": {"by form": "src/heads.rt src/law.rt proofs/DeclaredTables.antt proofs/HeadNames.antt proofs/Meaning.antt proofs/TextNames.antt "
                             "proofs/heads/check_declarations/Answers.antt specs/Naming.antt"},
    "gib_local_print": {"by form": "proofs/Inferred.antt proofs/TypedCovered.antt specs/Covered.antt"},
    "gib_app": {"by form": "src/compile.rt proofs/Compiling.antt proofs/Copied.antt proofs/CopiesNamed.antt proofs/LocatedLaws.antt proofs/LocatedNames.antt "
                           "proofs/OneProgram.antt proofs/SourceLaws.antt proofs/SpelledNames.antt proofs/compile/compile/Answers.antt proofs/compile/typed/Answers.antt"},
}
CLASSES = ("stays", "by name", "by form", "anew", "goes")


def uses(text):
    """The modules of gib_syntax that a text names, each with the names that it takes from there."""
    found = collections.defaultdict(list)
    for rest in re.findall(r"use Rattle\.gib_syntax\.specs\.(.*?)(?:;|\n)", text):
        for module, names in re.findall(r"(\w+)(?: as \w+)?(?:\.\{([^{}]*)\})?", re.sub(r"declared\.[\w.]+(\.\{[^{}]*\})?", "", rest)):
            found[module] += [n.split(" as ")[0].strip() for n in names.split(",")] if names else ["*"]
    return found


def names_programs(crate, text):
    own = VALUES | (LOCATED if crate.startswith("gib_local") or crate == "gib_reads" else set())
    for module, names in uses(text).items():
        if module in CHANGED + ["Meaning", "Declarations"] and any(n and n not in own for n in names):
            return True
    used = " ".join(re.findall(r"use Rattle\.gib_syntax\.specs\.(.*?)(?:;|\n)", text))
    return bool(re.search(r"declared\.(exprs|generic|program)\.|declared\.tree\.(FunctionDecl|MainDecl|ResultTypes)", used))


def files(crate):
    for folder, folders, names in os.walk(os.path.join(TOP, crate)):
        folders[:] = sorted(d for d in folders if d not in ("out", "must-fail", "data"))
        for name in sorted(names):
            if name.endswith((".rt", ".antt")):
                yield os.path.relpath(os.path.join(folder, name), os.path.join(TOP, crate))


def matches(pattern, path):
    return re.fullmatch(re.escape(pattern).replace(r"\*", "[^/]*"), path)


def classed(crate):
    """Each file of a crate with its class and its lines."""
    lists, unmet = LISTS.get(crate, {}), []
    patterns = [(kind, p) for kind, text in lists.items() for p in text.split()]
    met, out = set(), []
    for path in files(crate):
        text = open(os.path.join(TOP, crate, path)).read()
        kinds = [(k, p) for k, p in patterns if matches(p, path)]
        met.update(kinds)
        kind = kinds[0][0] if kinds else "by name" if names_programs(crate, text) else "stays"
        out.append((kind, path, text.count("\n")))
    for kind, pattern in patterns:
        if (kind, pattern) not in met:
            sys.exit(f"{crate}: no file {pattern}")
    return out


def main():
    total = collections.Counter()
    for crate in sys.argv[1:] or CRATES:
        count, lines = collections.Counter(), collections.Counter()
        for kind, path, n in classed(crate):
            count[kind] += 1
            lines[kind] += n
            if sys.argv[1:] and kind != "stays":
                print(f"{kind:8} {n:5} {path}")
        total.update(lines)
        print(f"| `{crate}` | " + " | ".join(f"{lines[k]:,} ({count[k]})" if count[k] else "-" for k in CLASSES) + " |")
    print("| together | " + " | ".join(f"{total[k]:,}" for k in CLASSES) + " |")


main()
