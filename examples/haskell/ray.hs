-- | A ray against a tree of boxes, in whole numbers: the first sphere that it meets, and how many boxes were opened.
module Ray where

import Gibbon.Prelude

data Vector = Vector Int Int Int

-- | A box by its least and greatest corners. A leaf has a sphere: its number, its centre, its radius.
data Scene
  = Sphere Int Vector Int
  | Box Vector Vector Scene Scene

data Beam = Beam Vector Vector

data Task = Task Beam Scene

data Hit
  = Miss
  | Hit Int Int

minus :: Vector -> Vector -> Vector
minus (Vector a b c) (Vector x y z) = Vector (a - x) (b - y) (c - z)

dot :: Vector -> Vector -> Int
dot (Vector a b c) (Vector x y z) = a * x + b * y + c * z

-- | The times, in thousandths, between which the beam is between two planes; none where it never is.
slab :: Int -> Int -> Int -> Int -> (Int, Int)
slab from along low high
  | along == 0 = if low <= from && from <= high then (minBound, maxBound) else (1, 0)
  | along > 0 = (a, b)
  | otherwise = (b, a)
  where
    a = (low - from) * 1000 `quot` along
    b = (high - from) * 1000 `quot` along

meetsBox :: Beam -> Vector -> Vector -> Bool
meetsBox (Beam (Vector a b c) (Vector x y z)) (Vector l m n) (Vector p q r) = begin <= end && end >= 0
  where
    (fromX, toX) = slab a x l p
    (fromY, toY) = slab b y m q
    (fromZ, toZ) = slab c z n r
    begin = max fromX (max fromY fromZ)
    end = min toX (min toY toZ)

-- | The whole root of a number that lies between two.
root :: Int -> Int -> Int -> Int
root n low high
  | high - low <= 1 = low
  | middle <= n `quot` middle = root n middle high
  | otherwise = root n low middle
  where
    middle = (low + high) `quot` 2

-- | When the beam meets a sphere, in thousandths.
meetsSphere :: Beam -> Int -> Vector -> Int -> Hit
meetsSphere (Beam from along) name centre radius
  | inside < 0 || a == 0 = Miss
  | early >= 0 = Hit name early
  | late >= 0 = Hit name late
  | otherwise = Miss
  where
    away = minus from centre
    a = dot along along
    b = dot away along
    inside = b * b - a * (dot away away - radius * radius)
    r = root inside 0 (min (inside + 1) 3000000000)
    early = (0 - b - r) * 1000 `quot` a
    late = (r - b) * 1000 `quot` a

-- | The earlier one.
earlier :: Hit -> Hit -> Hit
earlier Miss other = other
earlier one Miss = one
earlier one@(Hit _ s) other@(Hit _ t)
  | s <= t = one
  | otherwise = other

trace :: Beam -> Scene -> (Hit, Int)
trace beam (Sphere name centre radius) = (meetsSphere beam name centre radius, 0)
trace beam (Box low high one other)
  | not (meetsBox beam low high) = (Miss, 0)
  | otherwise = (earlier a b, m + n + 1)
  where
    ((a, m), (b, n)) = trace beam one .||. trace beam other

gibbon_main :: Task -> (Hit, Int)
gibbon_main (Task beam scene) = trace beam scene
