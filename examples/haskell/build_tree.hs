-- | Builds a full tree and turns it round.
module BuildTree where

import GHC.Conc (par, pseq)

data Tree
  = Leaf Int
  | Node Int Tree Tree

-- | The full tree with so many levels below its root; each node has its number, the root's is given.
build :: Int -> Int -> Tree
build levels number
  | levels <= 0 = Leaf number
  | otherwise = left `par` (right `pseq` Node number left right)
  where
    left = build (levels - 1) (2 * number)
    right = build (levels - 1) (2 * number + 1)

-- | The tree with left and right exchanged on every level.
turn :: Tree -> Tree
turn (Leaf number) = Leaf number
turn (Node number left right) = Node number (turn right) (turn left)

-- | The sum of the numbers, each less by ten times its depth.
weigh :: Int -> Tree -> Int
weigh depth (Leaf number) = number - 10 * depth
weigh depth (Node number left right) = number - 10 * depth + weigh (depth + 1) left + weigh (depth + 1) right

-- | What is left of the first leaf, for a tree that was turned.
firstLeaf :: Tree -> Int
firstLeaf (Leaf number) = number
firstLeaf (Node _ left _) = firstLeaf left

gibbon_main :: Int -> (Int, Int, Int)
gibbon_main levels = (firstLeaf tree, firstLeaf turned, weigh 0 turned)
  where
    tree = build levels 1
    turned = turn tree
