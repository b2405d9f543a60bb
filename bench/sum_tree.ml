(* The program of the bench on workers, in OCaml: reads a packed tree behind a number of passes, sums it so often, and prints the sum of
   all passes. Numbers have 63 bits here, which the bench's inputs do not tell apart. *)

type tree = Leaf of int | Node of tree * tree

(* Where the number of passes stands: behind a header of 16 bytes and a tag. The tree stands behind it. *)
let passes_at = 17
let tree_at = 25
let leaf_tag = '\000'

let number bytes at = Int64.to_int (Bytes.get_int64_le bytes at)

let rec read bytes at =
  if Bytes.get bytes at = leaf_tag then (Leaf (number bytes (at + 1)), at + 9)
  else
    let left, behind = read bytes (at + 1) in
    let right, behind = read bytes behind in
    (Node (left, right), behind)

let rec sum = function
  | Leaf n -> n
  | Node (left, right) ->
    let left = sum left in
    left + sum right

let () =
  let file = open_in_bin Sys.argv.(1) in
  let size = in_channel_length file in
  let bytes = Bytes.create size in
  really_input file bytes 0 size;
  let tree, _ = read bytes tree_at in
  let total = ref 0 in
  for _ = 1 to number bytes passes_at do
    total := !total + sum tree
  done;
  print_endline (string_of_int !total)
