#!/usr/bin/env python3
"""step3.py CLONE: gib_syntax with one tree of programs: the side with type parameters under plain names, the other side gone."""
import os, re, shutil, sys
top = sys.argv[1]; syn = f"{top}/crates/gib_syntax"; ws = f"{top}/workspaces/one_form"
def rm(p):
    p = f"{syn}/{p}"
    shutil.rmtree(p) if os.path.isdir(p) else os.remove(p)
def rd(p): return open(f"{syn}/{p}").read()
def wr(p, s):
    os.makedirs(os.path.dirname(f"{syn}/{p}"), exist_ok=True); open(f"{syn}/{p}", "w").write(s)
old_exprs = rd("src/exprs.rt"); old_meaning = rd("specs/Meaning.antt"); old_decl = rd("specs/Declarations.antt"); old_tree = rd("src/tree.rt"); old_typing = rd("specs/Typing.antt")
for p in ("specs/Tree.antt specs/Typing.antt specs/Fine.antt specs/Arena.antt specs/ArenaLaws.antt specs/Parts.antt specs/Plain.antt specs/Single.antt proofs/Commas.antt proofs/Layers.antt "
          "proofs/SingleMeaning.antt proofs/law/commas_make_parts proofs/law/types_order_tuples_alone src/exprs.rt").split(): rm(p)
for a, b in [("specs/GenericTree.antt", "specs/Tree.antt"), ("specs/GenericTyping.antt", "specs/Typing.antt"), ("specs/GenericFine.antt", "specs/Fine.antt"), ("specs/GenericArena.antt", "specs/Arena.antt"),
             ("specs/GenericLaws.antt", "specs/ArenaLaws.antt"), ("specs/GenericParts.antt", "specs/Parts.antt"), ("proofs/GenericLayers.antt", "proofs/Layers.antt"), ("src/generic.rt", "src/exprs.rt")]:
    shutil.move(f"{syn}/{a}", f"{syn}/{b}")
if os.path.isdir(f"{syn}/proofs/exprs"): rm("proofs/exprs")
if os.path.isdir(f"{syn}/proofs/generic"):
    shutil.move(f"{syn}/proofs/generic", f"{syn}/proofs/exprs")
    if os.path.isdir(f"{syn}/proofs/exprs/GenericExprs"): shutil.move(f"{syn}/proofs/exprs/GenericExprs", f"{syn}/proofs/exprs/Exprs")
# names
words = {}
for n in ("Expression Arguments Arms NoArgument Argument LastArm NextArm Var Num Bit Paren Op Call Make Let Par If Case Tuple FunctionTree MainTree ProgramTree DataTree ConstructorTree ParameterTree "
          "Row Globals Exprs Node Program Parts Tree Typing Fine Arena Meaning Layers").split(): words["Generic" + n] = n
words.update({"GenericLaws": "ArenaLaws", "GenericFunction": "FunctionDecl", "GenericMain": "MainDecl", "GenericData": "DataDecl", "GenericConstructor": "ConstructorDecl", "GenericParameter": "Parameter",
    "generic_expressions": "expressions", "all_generic_expressions": "all_expressions", "arm_generic_expressions": "arm_expressions", "generic_bindings": "bindings", "all_generic_bindings": "all_bindings",
    "arm_generic_bindings": "arm_bindings", "generic_arm_names": "arm_names", "is_generic_application": "is_application", "is_generic_atom": "is_atom", "IsGenericFine": "IsFine", "AreGenericFine": "AreFine",
    "HasGenericFine": "HasFine", "AreGenericParts": "AreParts", "IsGenericFineFunction": "IsFineFunction", "IsGenericFineProgram": "IsFineProgram", "HasGenericConstructor": "HasConstructor",
    "globals_of_generic": "globals_of", "generic_named": "function_named", "means_generic": "means", "run_generic": "run", "calls_meant": "calls", "meant": "eval", "meant_all": "eval_all",
    "meant_arms": "eval_arms", "of_generic": "of_function", "generic_names": "names_of", "generic_program_of": "program_of", "IsTypedGeneric": "IsTyped", "IsTypedGenericFunction": "IsTypedFunction",
    "IsTypedGenericHere": "IsTypedHere", "HasKnownGenericFields": "HasKnownFields", "HasForm": "Has", "HaveForms": "HaveAll", "ArmsHaveForm": "HaveArms"})
pat = re.compile(r"(?<![\w'-])(" + "|".join(sorted(words, key=len, reverse=True)) + r")(?![\w'])")
def named(s):
    comment = lambda line: line.lstrip().startswith(("--", "//"))
    s = "\n".join(pat.sub(lambda m: m.group(1) if comment(line) and m.group(1) == "meant" else words[m.group(1)], line) for line in s.split("\n"))
    s = s.replace("specs.declared.generic.", "specs.declared.exprs.").replace("declared.generic.", "declared.exprs.").replace("crate::generic::", "crate::exprs::")
    return s
for folder, _, names in os.walk(syn):
    for n in names:
        if n.endswith((".rt", ".antt")) and "/out/" not in folder:
            p = f"{folder}/{n}"; s = open(p).read(); t = named(s)
            if t != s: open(p, "w").write(t)
# the nodes: numbers and arms beside them
s = rd("src/exprs.rt")
number = old_exprs[old_exprs.index("/// The number of an expression."):old_exprs.index("/// A variable, and the expression")]
arm = old_exprs[old_exprs.index("/// An arm of a case"):old_exprs.index("/// One expression, with its parts")]
s = s.replace("use crate::exprs::{Arm, ExprId};\n", "")
i = s.index("/// A side of a `let par`")
wr("src/exprs.rt", s[:i] + number + arm + s[i:])
# the meaning
m = rd("specs/Meaning.antt"); g = rd("specs/GenericMeaning.antt"); rm("specs/GenericMeaning.antt")
values = m[m.index("-- What an expression means: a value"):m.index("abbrev mutual")]
values = re.sub(r"-- [^\n]*\n(?:-- [^\n]*\n)*abbrev pub made : .*?\n\n", "", values, flags=re.S)
results = m[m.index("-- The value is of the type, or one of parts"):]
gbody = g[g.index("-- A type of which only this is asked"):]
head = """-- What a program means: call by value on ordinary trees, with a bound on the depth of calls. The type of a constructor's field, or of a part, decides by which it
-- is a scalar, and so the order of evaluation; nothing else. Types are put for type variables.
use Rattle.std.specs.Prelude.{◌≡◌, ℕ, zero, suc, ℤ, pos, ◌==◌, Bool, true, false, if◌then◌else◌, int_lt, int_rem, List, [], ◌∷◌, ◌++◌, map, slice_get, Option, Some, None}
use Rattle.std.specs.Int.{w64, int_wrapping_add, int_wrapping_sub, int_wrapping_mul, int_wrapping_div}
use Rattle.std.specs.Ordering.{int_eq}
use Rattle.gib_types.specs.declared.table.Ty.{Ty}
use Rattle.gib_types.specs.declared.table.Ty.TheVariants.{Whole, Truth, Tree}
use Rattle.gib_types.specs.Table.{Table}
pub use Rattle.gib_types.specs.Table.{is_scalar, at_fields}
use Rattle.gib_types.specs.Tree.{Datum, Data, whole, truth, con, data_of, list_of, HasType, HaveTypes}
use Rattle.gib_types.specs.Form.{form_or}
use Rattle.gib_types.specs.declared.operator.Operator.{Operator}
use Rattle.gib_types.specs.declared.operator.Operator.TheVariants as o
use Rattle.gib_syntax.specs.declared.tree.Ident.{Ident}
use Rattle.gib_syntax.specs.Results.{Results, One, Several}
use Rattle.gib_syntax.specs.Declarations.{number_of}
use Rattle.gib_syntax.specs.Forms.{Form, Forms, WholeForm, TruthForm, VariableForm, DataForm, NoForm, Meant, formed, formed_all, assign}
use Rattle.gib_syntax.specs.Tree.{Expression, Arguments, Arms, Var, Num, Bit, Paren, Op, Call, Make, Let, Par, If, Case, Tuple, NoArgument, Argument, LastArm, NextArm, ParameterTree, FunctionTree, ProgramTree, Row, Globals, globals_of, place_named, function_named}
use Rattle.gib_syntax.specs.Typing.{FormScope, form_in, form_bound, field_forms}
use Rattle.gib_syntax.specs.Inferred.{arguments_of, forms_named, bind_forms, form_of, forms_of_all, bound_forms}
pub use Rattle.gib_types.specs.declared.reason.Reason.{Reason}
pub use Rattle.gib_types.specs.declared.reason.Reason.TheVariants.{Deep, Trap}

"""
wr("specs/Meaning.antt", head + values.rstrip() + "\n\n" + gbody.rstrip() + "\n\n" + results)
# the table
d = rd("specs/Declarations.antt")
keep = d[:d.index("-- The names of the declared types.")]
tree_type = old_decl[old_decl.index("-- The declared type of a number"):old_decl.index("-- The type that is written, where")]
type_or = old_decl[old_decl.index("-- A type, `Int` where there is none"):old_decl.index("-- The type that is written, `Int` where")]
cons = old_decl[old_decl.index("-- The names of the constructors."):old_decl.index("-- The function of a name: the first one.")]
keep = re.sub(r"^use Rattle\.gib_syntax\.specs\.(declared\.tree\.TypeName|Tree|Results|declared\.tree\.Parameter).*\n", "", keep, flags=re.M)
wr("specs/Declarations.antt", keep + tree_type + type_or + cons.rstrip() + "\n")
t = open(f"{ws}/specs/Table.antt.txt").read().replace("Rattle.one_form.", "Rattle.gib_syntax.")
wr("specs/Table.antt", t)
# is_closed
tree = rd("specs/Tree.antt"); w = open(f"{ws}/specs/Tree.antt.txt").read()
closed = w[w.index("-- There are no type variables."):]
tree = re.sub(r"use Rattle\.std\.specs\.Prelude\.\{[^}]*\}", "use Rattle.std.specs.Prelude.{ℕ, ◌==◌, if◌then◌else◌, ◌&&◌, Bool, true, false, List, [], ◌∷◌, ◌++◌, map, Option, Some, None}", tree, count=1)
tree = tree.rstrip() + "\n\n" + closed
wr("specs/Tree.antt", tree)
# contents
lib = rd("specs/Lib.antt")
lib = "\n".join(dict.fromkeys(l for l in lib.split("\n") if l and not re.match(r"pub mod (Single|Plain)$", l)))
wr("specs/Lib.antt", lib + "\npub mod Table\n")
lib = rd("proofs/Lib.antt")
lib = "\n".join(dict.fromkeys(l for l in lib.split("\n") if l and not re.match(r"pub mod (SingleMeaning|Commas)$", l)))
wr("proofs/Lib.antt", lib + "\n")
# the root
s = rd("src/lib.rt")
s = s.replace("mod generic;\n", "").replace("pub use exprs::{Arm, Bound, ExprId, Exprs, Node};\n", "pub use exprs::{Arm, ExprId, Exprs, Node, Side};\n")
s = re.sub(r"pub use generic::\{[^}]*\};\n", "", s)
s = re.sub(r"pub use tree::\{.*?\};\n", "pub use tree::Ident;\n", s, flags=re.S)
wr("src/lib.rt", s)
for f, _, ns in os.walk(f"{syn}/proofs/exprs"):
    for n in ns:
        p = f"{f}/{n}"; t = open(p).read(); open(p, "w").write(t.replace("proofs.generic.", "proofs.exprs."))
wr("src/tree.rt", "//! Names where they stand.\n\nuse gib_base::{Name, Span};\n\n" + old_tree[old_tree.index("/// A name where it stands"):old_tree.index("/// A type as it is written")].rstrip() + "\n")

# What typed closed programs give, and more depth: from the workspace, over what today's file says of environments and outcomes.
def of_workspace(path):
    s = open(f"{ws}/{path}.txt").read()
    s = s.replace("Rattle.one_form.specs.ClosedTyping.", "Rattle.gib_syntax.proofs.TableTyping.").replace("Rattle.one_form.", "Rattle.gib_syntax.")
    return named(s).replace("HaveFine", "HasFine").replace("specs.Inferred.{parameter_forms}", "specs.Typing.{parameter_forms}")
def drop(s, first, last):
    return s[:s.index(first)] + s[s.index(last):]
today = rd("proofs/Soundness.antt")
front = today[today.index("-- Places of names"):today.index("-- Expressions")]
front = drop(front, "pub made_has :", "pub choose_has :")
later = today[today.index("-- a value and its variables, or its parts and theirs"):today.index("true_or_false :")]
none = today[today.index("pub nothing_agrees"):today.index("pub body_has")]
wr("proofs/Values.antt", """-- Places of names, environments and outcomes of typed programs.
use Rattle.std.proofs.Common.{◌≡◌, ℕ, zero, suc, ℤ, pos, Bool, true, false, ◌==◌, if◌then◌else◌, List, [], ◌∷◌, ◌++◌, map, Option, Some, None, refl, sym, ap, ◌∙◌, subst}
use Rattle.std.specs.Prelude.{slice_get, int_div, FitsSigned}
use Rattle.std.specs.Option.{option_map}
use Rattle.std.specs.Int.{w64, cast_unsigned}
use Rattle.std.proofs.lemmas.Option.{same_Some, slice_get-map}
use Rattle.std.proofs.lemmas.Bool.{eqb-true, eq-eqb}
use Rattle.std.proofs.lemmas.Int.{wrapping_add_is, wrapping_sub_is, wrapping_mul_is, SFits-int_wrap}
use Rattle.std.specs.Prelude.{◌+ℤ◌, ◌-ℤ◌, ◌*ℤ◌}
use lib.Signed.{mag_rem}
use mir.ValLaws.{sfits_le}
use borrow.Author.Gap.{read_sfits}
use Rattle.gib_types.specs.declared.table.Ty.{Ty}
use Rattle.gib_types.specs.declared.table.Ty.TheVariants.{Whole, Truth, Tree}
use Rattle.gib_types.specs.Table.{Row, Table, con_at, if_owned, owner_of, owner_at, name_of, name_at}
use Rattle.gib_types.specs.Tree.{Datum, whole, truth, con, Data, none, more, data_of, list_of, HasType, HaveTypes}
use Rattle.gib_types.specs.declared.operator.Operator.{Operator}
use Rattle.gib_types.specs.declared.operator.Operator.TheVariants as o
use Rattle.gib_types.specs.Operators.{operator_type}
use Rattle.gib_syntax.specs.declared.tree.Ident.{Ident}
use Rattle.gib_syntax.specs.Results.{Results, One, Several, as_results}
use Rattle.gib_syntax.specs.Declarations.{number_of, place_of, next_place, AreDifferent, constructor_names, constructor_named}
use Rattle.gib_syntax.specs.Meaning.{Outcome, Gives, Stops, Environment, value_in, bind, bind_results, with_value, with_values, with_fields, at_fields, number_in, is_made_by, parts, operate, outcome_unless, choose, HasResults, OutcomeGives, OutcomeHas}
use Rattle.gib_syntax.proofs.TableTyping.{Scope, type_in, BindsAll}

""" + front + later + none)
scopes = old_typing[old_typing.index("-- The variables in scope with their types, the newest first."):old_typing.index("-- The names of parameters, in their order.")]
covers = old_typing[old_typing.index("-- Arms of these constructors are those of a type"):old_typing.index("-- A type that is written is `Int`, `Bool` or declared.")]
t = of_workspace("specs/ClosedTyping.antt")
t = re.sub(r"use Rattle\.gib_syntax\.specs\.Typing\.\{Scope, type_in, BindsAll, Covers\}\n", "", t)
t = t.replace("use Rattle.std.specs.Prelude.{◌≡◌, ℕ, List, [], ◌∷◌, map, Some}", "use Rattle.std.specs.Prelude.{◌≡◌, ℕ, ◌==◌, if◌then◌else◌, List, [], ◌∷◌, map, Option, Some, None}")
t = t.replace("specs.Table.{Table, fields_at, owner_at}", "specs.Table.{Table, con_at, fields_at, owner_at, name_at}").replace("tree_type, type_or, constructor_named}", "AreDifferent, tree_type, type_or, constructor_named}")
t = t.replace("use Rattle.gib_syntax.specs.Forms.", "use Rattle.gib_syntax.specs.declared.tree.Ident.{Ident}\nuse Rattle.gib_syntax.specs.Forms.", 1)
i = t.index("-- The type of the table that is meant;")
wr("proofs/TableTyping.antt", t[:i] + scopes + covers + t[i:])
telling = open(f"{ws}/proofs/Telling.antt.txt").read()
rows = named(telling[telling.index("row_named : (types"):telling.index("-- A type that has a constructor has an arm.")])
c = of_workspace("proofs/ClosedTyping.antt")
c = c.replace("use Rattle.gib_syntax.proofs.Telling.{rows_named}\n", "").replace("use Rattle.gib_syntax.specs.Typing.{Scope, type_in, bound, BindsAll, Covers}\n", "use Rattle.gib_syntax.proofs.TableTyping.{Scope, type_in, bound, BindsAll, Covers}\n")
c = c.replace("use Rattle.gib_syntax.proofs.Soundness.", "use Rattle.gib_syntax.proofs.Values.").replace("-- What of a row stands in the table.", rows + "-- What of a row stands in the table.", 1)
wr("proofs/ClosedTyping.antt", c)
k = of_workspace("proofs/Soundness.antt").replace("use Rattle.gib_syntax.proofs.Soundness.", "use Rattle.gib_syntax.proofs.Values.").replace("use Rattle.gib_syntax.proofs.Telling.{rows_named}\n", "")
k = k.replace("use Rattle.gib_syntax.specs.Typing.{Scope, BindsAll}\n", "use Rattle.gib_syntax.proofs.TableTyping.{Scope, BindsAll}\n").replace("proofs.ClosedTyping.{closed_functions, closed_main}", "proofs.ClosedTyping.{rows_named, closed_functions, closed_main}")
wr("proofs/Soundness.antt", k)
wr("proofs/Depth.antt", of_workspace("proofs/Depth.antt"))
for law, name, imported in [("results_are_typed", "results_are_typed", "Soundness"), ("more_depth_keeps_the_value", "run_keeps", "Depth")]:
    wr(f"proofs/law/{law}/Answers.antt", f"use Rattle.gib_syntax.proofs.{imported}.{{{name}}}\nuse Rattle.gib_syntax.proofs.law.{law}.Goals as goal\n\npub returns : goal.returns\nreturns c = {name}\n")
lib = rd("proofs/Lib.antt").replace("pub mod Soundness\n", "pub mod TableTyping\npub mod Values\npub mod ClosedTyping\npub mod Soundness\n")
wr("proofs/Lib.antt", lib)
