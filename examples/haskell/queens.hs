-- | In how many ways n queens stand on a board of n by n squares, none in the way of another; and the first way.
module Queens where

-- | Whether a queen in the next row and this column is safe from those in the rows before, the last one first.
safe :: Int -> Int -> [Int] -> Bool
safe _ _ [] = True
safe column distance (queen : queens) =
  column /= queen && abs (column - queen) /= distance && safe column (distance + 1) queens

-- | How many ways there are to put queens into the rows that are left, from this column on.
ways :: Int -> Int -> Int -> [Int] -> Int
ways size left column queens
  | left == 0 = 1
  | column > size = 0
  | safe column 1 queens = ways size (left - 1) 1 (column : queens) + others
  | otherwise = others
  where
    others = ways size left (column + 1) queens

-- | The first way, if there is one.
first :: Int -> Int -> Int -> [Int] -> Maybe [Int]
first size left column queens
  | left == 0 = Just queens
  | column > size = Nothing
  | safe column 1 queens, Just found <- first size (left - 1) 1 (column : queens) = Just found
  | otherwise = first size left (column + 1) queens

gibbon_main :: Int -> (Int, Maybe [Int])
gibbon_main size = (ways size size 1 [], first size size 1 [])
