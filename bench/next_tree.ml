(* The program of the bench on trees, in OCaml: reads a packed tree, adds one to each leaf, prints the text of the result.
   Numbers have 63 bits here, which the bench's inputs do not tell apart. *)

type tree = Leaf of int | Node of tree * tree

(* Tags and sizes of the packed form, behind a header of 16 bytes. *)
let header = 16
let leaf_tag = '\000'
let number_bytes = 8

let rec read bytes at =
  if Bytes.get bytes at = leaf_tag then
    (Leaf (Int64.to_int (Bytes.get_int64_le bytes (at + 1))), at + 1 + number_bytes)
  else
    let left, behind = read bytes (at + 1) in
    let right, behind = read bytes behind in
    (Node (left, right), behind)

let rec next = function
  | Leaf n -> Leaf (n + 1)
  | Node (left, right) ->
    let left = next left in
    Node (left, next right)

let rec put out = function
  | Leaf n ->
    Buffer.add_string out "(Leaf ";
    Buffer.add_string out (string_of_int n);
    Buffer.add_char out ')'
  | Node (left, right) ->
    Buffer.add_string out "(Node ";
    put out left;
    Buffer.add_char out ' ';
    put out right;
    Buffer.add_char out ')'

let () =
  let file = open_in_bin Sys.argv.(1) in
  let size = in_channel_length file in
  let bytes = Bytes.create size in
  really_input file bytes 0 size;
  let tree, _ = read bytes header in
  let out = Buffer.create 65536 in
  put out (next tree);
  Buffer.add_char out '\n';
  print_string (Buffer.contents out)
