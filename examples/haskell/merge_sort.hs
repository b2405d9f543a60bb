-- | Sorts a list by merging its halves.
module MergeSort where

import Gibbon.Prelude

-- | Deals a list onto two piles.
deal :: [Int] -> [Int] -> [Int] -> ([Int], [Int])
deal [] pile other = (pile, other)
deal (first : rest) pile other = deal rest other (first : pile)

merge :: [Int] -> [Int] -> [Int]
merge [] right = right
merge left [] = left
merge left@(a : as) right@(b : bs)
  | a <= b = a : merge as right
  | otherwise = b : merge left bs

sort :: [Int] -> [Int]
sort [] = []
sort [only] = [only]
sort list = merge first second
  where
    (left, right) = deal list [] []
    (first, second) = par (sort left) (sort right)

gibbon_main :: [Int] -> [Int]
gibbon_main list = sort list
