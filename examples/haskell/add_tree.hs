-- | Adds a number to each leaf, in the way of Gibbon: what is spawned is worked on while the next value is made.
module AddTree where

import Gibbon.Prelude

data Tree
  = Leaf Int
  | Node Tree Tree

-- | The number, and the tree that it is added to.
data Task = Task Int Tree

addTree :: Int -> Tree -> Tree
addTree n (Leaf m) = Leaf (m + n)
addTree n (Node left right) =
  let x = spawn (addTree n left)
      y = addTree n right
      _ = sync
   in Node x y

gibbon_main :: Task -> Tree
gibbon_main (Task n tree) = addTree n tree
