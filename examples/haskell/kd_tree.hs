-- | Points of the plane in a k-d tree: how many lie in a rectangle, and which one is nearest to another point.
module KdTree where

import Gibbon.Prelude

type Point = (Int, Int)

data Tree
  = Empty
  | At Int Int Tree Tree

-- | A rectangle by its least and greatest coordinates, a point that a neighbour is sought for, and all points.
data Query = Query Point Point Point [Point]

data Answer = Answer Int (Maybe Point)

data Axis = AlongX | AlongY

other :: Axis -> Axis
other AlongX = AlongY
other AlongY = AlongX

along :: Axis -> Int -> Int -> Int
along AlongX x _ = x
along AlongY _ y = y

coordinate :: Axis -> Point -> Int
coordinate axis (x, y) = along axis x y

insert :: Axis -> Int -> Int -> Tree -> Tree
insert _ x y Empty = At x y Empty Empty
insert axis x y (At a b less more)
  | along axis x y < along axis a b = At a b (insert (other axis) x y less) more
  | otherwise = At a b less (insert (other axis) x y more)

insertAll :: [Point] -> Tree -> Tree
insertAll [] tree = tree
insertAll ((x, y) : points) tree = insertAll points (insert AlongX x y tree)

inside :: Point -> Point -> Point -> Bool
inside (left, low) (right, high) (x, y) = left <= x && x <= right && low <= y && y <= high

-- | How many points lie in a rectangle. A side of a node that cannot have any is not walked.
countIn :: Axis -> Point -> Point -> Tree -> Int
countIn _ _ _ Empty = 0
countIn axis least greatest (At x y less more) = own + a + b
  where
    own = if inside least greatest (x, y) then 1 else 0
    middle = along axis x y
    (a, b) =
      par
        (if coordinate axis least < middle then countIn (other axis) least greatest less else 0)
        (if middle <= coordinate axis greatest then countIn (other axis) least greatest more else 0)

distance :: Point -> Point -> Int
distance (a, b) (c, d) = (a - c) * (a - c) + (b - d) * (b - d)

nearer :: Point -> Point -> Maybe Point -> Maybe Point
nearer _ here Nothing = Just here
nearer point here (Just best)
  | distance point here < distance point best = Just here
  | otherwise = Just best

-- | The nearest point of those in the tree and the best one so far.
nearest :: Axis -> Point -> Tree -> Maybe Point -> Maybe Point
nearest _ _ Empty best = best
nearest axis point (At x y less more) best
  | gap < 0 = across axis point gap more (nearest (other axis) point less closer)
  | otherwise = across axis point gap less (nearest (other axis) point more closer)
  where
    gap = coordinate axis point - along axis x y
    closer = nearer point (x, y) best

-- | Looks on the far side of a node too, where a nearer point may lie.
across :: Axis -> Point -> Int -> Tree -> Maybe Point -> Maybe Point
across axis point gap far best = case best of
  Just found | distance point found <= gap * gap -> best
  _ -> nearest (other axis) point far best

gibbon_main :: Query -> Answer
gibbon_main (Query least greatest point points) = Answer (countIn AlongX least greatest tree) (nearest AlongX point tree Nothing)
  where
    tree = insertAll points Empty
