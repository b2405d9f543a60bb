-- | In how many ways coins make an amount, and with how few of them.
module Coins where

data Purse = Purse Int [Int]

data Fewest
  = Never
  | Of Int

ways :: Int -> [Int] -> Int
ways 0 _ = 1
ways _ [] = 0
ways amount coins@(coin : others)
  | amount < 0 || coin <= 0 = 0
  | otherwise = ways (amount - coin) coins + ways amount others

fewer :: Fewest -> Fewest -> Fewest
fewer Never other = other
fewer one Never = one
fewer (Of m) (Of n) = if m < n then Of m else Of n

-- | The fewest coins, the greatest ones first; what needs more than the best so far is not looked at.
fewest :: Int -> [Int] -> Int -> Fewest -> Fewest
fewest 0 _ used best = fewer (Of used) best
fewest _ [] _ best = best
fewest amount coins@(coin : others) used best
  | amount < 0 || coin <= 0 = best
  | Of known <- best, used + amount `quot` coin >= known = best
  | amount < coin = fewest amount others used best
  | otherwise = fewest amount others used (fewest (amount - coin) coins (used + 1) best)

gibbon_main :: Purse -> (Int, Fewest)
gibbon_main (Purse amount coins) = (ways amount coins, fewest amount coins 0 Never)
