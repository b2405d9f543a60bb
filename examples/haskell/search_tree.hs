-- | Puts keys into a search tree, and lists them in order, each with how often it came.
module SearchTree where

data Tree a
  = Empty
  | Entry (Tree a) Int a (Tree a)

-- | How often a key came so far.
find :: Int -> Tree Int -> Int
find _ Empty = 0
find key (Entry smaller here count greater)
  | key < here = find key smaller
  | key > here = find key greater
  | otherwise = count

insert :: Int -> a -> Tree a -> Tree a
insert key new Empty = Entry Empty key new Empty
insert key new (Entry smaller here old greater)
  | key < here = Entry (insert key new smaller) here old greater
  | key == here = Entry smaller here new greater
  | otherwise = Entry smaller here old (insert key new greater)

-- | The keys in order, in front of others.
entries :: Tree a -> [(Int, a)] -> [(Int, a)]
entries Empty others = others
entries (Entry smaller key value greater) others = entries smaller ((key, value) : entries greater others)

count :: [Int] -> Tree Int -> Tree Int
count [] tree = tree
count (key : keys) tree = count keys (insert key (find key tree + 1) tree)

gibbon_main :: [Int] -> [(Int, Int)]
gibbon_main keys = entries (count keys Empty) []
