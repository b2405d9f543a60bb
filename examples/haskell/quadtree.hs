-- | Bodies in a quadtree: what they weigh together, and how they pull at a point, where far squares count as one body.
module Quadtree where

import Gibbon.Prelude

-- | A body: its weight, and where it is.
data Body = Body Int Int Int

data Quad
  = Empty
  | Single Body
  | -- | All weight, the sums of weight times place, and the four quarters.
    Square Int Int Int Quad Quad Quad Quad

-- | The side of the whole square, a power of two, and what lies in it.
data World = World Int [Body]

data Pull = Pull Int Int Int

-- | Puts a body into the square whose least corner and side are given.
insert :: Int -> Int -> Int -> Body -> Quad -> Quad
insert _ _ _ body Empty = Single body
insert x y side body@(Body m _ _) (Single old@(Body n _ _))
  | side <= 1 = Single (heavier m n body old)
  | otherwise = insert x y side body (insert x y side old (Square 0 0 0 Empty Empty Empty Empty))
insert x y side body@(Body m px py) (Square w wx wy a b c d)
  | px < middleX && py < middleY = Square w' wx' wy' (insert x y half body a) b c d
  | py < middleY = Square w' wx' wy' a (insert middleX y half body b) c d
  | px < middleX = Square w' wx' wy' a b (insert x middleY half body c) d
  | otherwise = Square w' wx' wy' a b c (insert middleX middleY half body d)
  where
    half = side `quot` 2
    middleX = x + half
    middleY = y + half
    w' = w + m
    wx' = wx + m * px
    wy' = wy + m * py

-- | Two bodies on one spot are one, at the place of the heavier.
heavier :: Int -> Int -> Body -> Body -> Body
heavier m n (Body _ a b) (Body _ c d) = if m > n then Body (m + n) a b else Body (m + n) c d

insertAll :: Int -> [Body] -> Quad -> Quad
insertAll _ [] quad = quad
insertAll side (body : bodies) quad = insertAll side bodies (insert 0 0 side body quad)

-- | How a body pulls at a point, in whole numbers.
pullOf :: Int -> Int -> Body -> (Int, Int)
pullOf x y (Body m px py)
  | r == 0 = (0, 0)
  | otherwise = (m * (px - x) * 1000 `quot` r, m * (py - y) * 1000 `quot` r)
  where
    r = (px - x) * (px - x) + (py - y) * (py - y)

pullAt :: Int -> Int -> Int -> Quad -> (Int, Int)
pullAt _ _ _ Empty = (0, 0)
pullAt x y _ (Single body) = pullOf x y body
pullAt x y side (Square w wx wy a b c d)
  | w == 0 = (0, 0)
  | far = pullOf x y (Body w cx cy)
  | otherwise =
    let ((p, q), (r, s)) = par (both (pullAt x y half a) (pullAt x y half b)) (both (pullAt x y half c) (pullAt x y half d))
     in (p + r, q + s)
  where
    half = side `quot` 2
    cx = wx `quot` w
    cy = wy `quot` w
    far = side * side < (cx - x) * (cx - x) + (cy - y) * (cy - y)

both :: (Int, Int) -> (Int, Int) -> (Int, Int)
both (a, b) (c, d) = (a + c, b + d)

weight :: Quad -> Int
weight Empty = 0
weight (Single (Body m _ _)) = m
weight (Square w _ _ _ _ _ _) = w

gibbon_main :: World -> Pull
gibbon_main (World side bodies) = Pull (weight quad) fx fy
  where
    quad = insertAll side bodies Empty
    (fx, fy) = pullAt (side `quot` 3) (side `quot` 5) side quad
