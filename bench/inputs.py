"""Makes what the bench measures on: packed files and their texts of a stated size, and sources."""

HEADER = b"GIBP\x01\0\0\0"

# Bytes of a cell, of a leaf with its node, and of the text of these two.
CELL = 9
LEAF = 10
LEAF_TEXT = 16

LIST = "data List = Nil | Cons Int List ;\n\nmain (list : List) : List = list ;\n"

TREE = """data Tree = Leaf Int | Node Tree Tree ;

fun add_one (tree : Tree) : Tree =
  case tree of {
    Leaf n -> Leaf (n + 1) ;
    Node left right -> let par a = add_one left and b = add_one right in Node a b
  } ;

main (tree : Tree) : Tree = add_one tree ;
"""


# A tree is summed as often as the number beside it says.
SUMS = """data Tree = Leaf Int | Node Tree Tree ;

data Work = Work Int Tree ;

fun sum (tree : Tree) : Int =
  case tree of {
    Leaf n -> n ;
    Node left right -> let par a = sum left and b = sum right in (a + b)
  } ;

fun sums (passes : Int) (tree : Tree) : Int =
  if (passes == 0) then 0 else (sum tree + sums (passes - 1) tree) ;

main (work : Work) : Int = case work of { Work passes tree -> sums passes tree } ;
"""


def packed(payload):
    return HEADER + len(payload).to_bytes(8, "little") + payload


def number(n):
    return n.to_bytes(8, "little", signed=True)


def list_file(cells):
    return packed((b"\x01" + number(1)) * cells + b"\x00")


def list_text(cells):
    return b"(Cons 1 " * cells + b"Nil" + b")" * cells + b"\n"


def full_tree(leaves, leaf, node):
    """The bytes of a tree in which each node halves its leaves; `node` joins the bytes of two trees."""
    made = {1: leaf}

    def tree(count):
        if count not in made:
            made[count] = node(tree(count // 2), tree(count - count // 2))
        return made[count]

    return tree(leaves)


def tree_bytes(leaves):
    return full_tree(leaves, b"\x00" + number(1), lambda left, right: b"\x01" + left + right)


def tree_file(leaves):
    return packed(tree_bytes(leaves))


def work_file(passes, leaves):
    """The input of SUMS: so many passes over a full tree."""
    return packed(b"\x02" + number(passes) + tree_bytes(leaves))


def tree_text(leaves, value=1):
    leaf = b"(Leaf %d)" % value
    return full_tree(leaves, leaf, lambda left, right: b"(Node %s %s)" % (left, right)) + b"\n"


def next_text(leaves):
    """The text of what TREE gives on the tree."""
    return tree_text(leaves, 2)


PAIR = """fun step_{k} (n : Int) (tree : Tree) : Int =
  case tree of {{
    Leaf m ->
      let first = ((n * {k}) + (m - 17)) in
      let second = if (first < {a}) then (first + 1) else (first - m) in
      let wide = ((first * (second - 5)) + (m * (n + {c}))) in
      let clipped = if (wide < 100000) then wide else (wide - (first * {b})) in
      let par third = step_{a} second tree and fourth = step_{b} (clipped * 3) tree in
      let total = ((third + fourth) * (first - (second + {b}))) in
      if (total == clipped) then step_{c} (total - 1) tree else (total + (third * fourth)) ;
    Node left right ->
      let par low = step_{b} (n + {a}) left and high = step_{a} (n - {b}) right in
      let middle = ((low + high) * (n - {k})) in
      let box = Box_{d} middle left in
      if (low == high) then case box of {{ Box_{d} inner boxed -> step_{b} (inner - n) boxed }}
      else let tip = grow_{c} middle (Node left right) in step_{c} (high + low) tip
  }} ;

-- Makes a tree of another by its sums; the counterpart of step_{k}.
fun grow_{k} (n : Int) (tree : Tree) : Tree =
  case tree of {{
    Leaf m ->
      let near = ((m * n) + {a}) in
      let far = ((near - {b}) * (m + 1)) in
      if (m < n) then Node (Leaf (m + n)) (Leaf {k})
      else if (near == far) then grow_{b} (near - far) tree
      else Node (Node (Leaf near) (Leaf far)) (Leaf (n * (m + {c}))) ;
    Node left right ->
      let par fresh = grow_{a} (n + 1) right and other = grow_{c} (n - 1) left in
      let weight = (step_{k} n fresh + step_{b} (n * 2) other) in
      let tip = if (weight < {c}) then Leaf weight else Node (Leaf (0 - weight)) fresh in
      Node (Node fresh left) (Node other (Node tip (Leaf (weight + {a}))))
  }} ;

"""

# A million bytes have 1,000 functions, which is the limit. What a pair leaves of this is filled with comments.
BYTES_PER_PAIR = 2000

PAIRS_PER_TYPE = 5


def pair(k, pairs):
    """The k-th pair, with calls of three others."""
    others = {"a": (k * 7 + 3) % pairs, "b": (k * 31 + 11) % pairs, "c": (k * 131 + 29) % pairs}
    return PAIR.format(k=k, d=k // PAIRS_PER_TYPE, **others)


MAIN = "main (n : Int) : Int = n ;\n"


def source(size):
    """A typed source of about so many bytes: types, pairs of functions that call others, and main."""
    pairs = size // BYTES_PER_PAIR
    boxes = (f"data Box_{k} = Box_{k} Int Tree ;\n" for k in range(pairs // PAIRS_PER_TYPE))
    types = "data Tree = Leaf Int | Node Tree Tree ;\n\n" + "".join(boxes) + "\n"
    functions = "".join(pair(k, pairs) for k in range(pairs))
    comment = "-- " + "x" * 96 + "\n"
    left = size - len(types) - len(functions) - len(MAIN)
    return (types + functions + comment * (left // len(comment)) + MAIN).encode()


# What one constructor, one branch and one head can hold at most, near the limits of a source.
ARMS, LEVELS, FIELDS = 198, 180, 8


def functions_up_to(size, types, function):
    """A source of types, of as many functions as fit into so many bytes, and of main."""
    count = (size - len(types) - len(MAIN)) // len(function(999))
    return (types + "".join(function(k) for k in range(count)) + MAIN).encode()


def arms_source(size):
    """Functions whose `case` has nearly as many arms as a program may have constructors."""
    names = [f"Case_{k}" for k in range(ARMS)]
    arms = " ; ".join(f"{name} -> {k}" for k, name in enumerate(names))
    types = f"data Many = {' | '.join(names)} ;\n\n"
    return functions_up_to(size, types, lambda k: f"fun pick_{k} (m : Many) : Int = case m of {{ {arms} }} ;\n\n")


def deep_source(size):
    """Functions whose expressions are nested nearly as deep as they may be, with many operations at the greatest depth."""
    end = "n"
    for _ in range(LEVELS // 20):
        end = f"({end} + {end})"
    tests = " ".join(f"if (n < {k}) then {k} else" for k in range(LEVELS))
    return functions_up_to(size, "", lambda k: f"fun deep_{k} (n : Int) : Int = {tests} {end} ;\n\n")


def wide_source(size):
    """Functions that build many heads of as many packed fields as there may be."""
    fields = " ".join("abcdefgh"[:FIELDS])
    types = f"data Tree = Leaf Int | Node{' Tree' * FIELDS} ;\n\n"
    built = "".join(f"let x{k} = Node {fields} in " for k in range(6 * FIELDS))
    arms = f"Leaf n -> t ; Node {fields} -> {built}x0"
    return functions_up_to(size, types, lambda k: f"fun wide_{k} (t : Tree) : Tree = case t of {{ {arms} }} ;\n\n")


# How many operations one function of sums has, and how many lines of two calls one of calls.
SUMS_DEEP, CALLS_DEEP = 120, 40


def sums_source(size):
    """Functions of arithmetic alone, each one expression of many operations."""

    def function(k):
        value = "n"
        for i in range(SUMS_DEEP):
            value = f"({value} {'+-*'[i % 3]} {(i * 7 + k) % 1000})" if i % 2 else f"((n * {i}) + {value})"
        return f"fun sums_{k} (n : Int) : Int = {value} ;\n\n"

    return functions_up_to(size, "", function)


def calls_source(size):
    """Functions that call others, each result an argument of the next call."""

    def function(k):
        calls = "".join(f"let x{i + 1} = call_{(k + i) % 20} (call_{(k + 3 * i) % 20} x{i} {i}) x0 in " for i in range(CALLS_DEEP))
        return f"fun call_{k} (x0 : Int) (m : Int) : Int = {calls}x{CALLS_DEEP} ;\n\n"

    return functions_up_to(size, "", function)
