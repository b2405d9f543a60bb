-- | The sum of a tree's leaves, both sides of a node at the same time.
module SumTree where

import Gibbon.Prelude

data Tree
  = Leaf Int
  | Node Tree Tree

sumTree :: Tree -> Int
sumTree (Leaf n) = n
sumTree (Node left right) = a + b
  where
    (a, b) = sumTree left .||. sumTree right

gibbon_main :: Tree -> Int
gibbon_main tree = sumTree tree
