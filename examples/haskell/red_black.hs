-- | Puts keys into a red-black tree, and gives the tree, how many keys it has, and how high it is.
module RedBlack where

data Color = Red | Black

data Tree
  = Empty
  | Node Color Tree Int Tree

data Report = Report Int Int Tree

insert :: Int -> Tree -> Tree
insert key tree = blacken (put key tree)

blacken :: Tree -> Tree
blacken Empty = Empty
blacken (Node _ smaller key greater) = Node Black smaller key greater

-- | Puts a key in; the root may be red then, with a red child.
put :: Int -> Tree -> Tree
put key Empty = Node Red Empty key Empty
put key tree@(Node color smaller here greater)
  | key < here = balance color (put key smaller) here greater
  | key > here = balance color smaller here (put key greater)
  | otherwise = tree -- it is there already

-- | No red node has a red child: the four ways in which one has become the same.
balance :: Color -> Tree -> Int -> Tree -> Tree
balance Black (Node Red (Node Red a x b) y c) z d = Node Red (Node Black a x b) y (Node Black c z d)
balance Black (Node Red a x (Node Red b y c)) z d = Node Red (Node Black a x b) y (Node Black c z d)
balance Black a x (Node Red (Node Red b y c) z d) = Node Red (Node Black a x b) y (Node Black c z d)
balance Black a x (Node Red b y (Node Red c z d)) = Node Red (Node Black a x b) y (Node Black c z d)
balance color a x b = Node color a x b

insertAll :: [Int] -> Tree -> Tree
insertAll [] tree = tree
insertAll (key : keys) tree = insertAll keys (insert key tree)

-- | How many keys there are, and the longest way down.
measure :: Tree -> (Int, Int)
measure Empty = (0, 0)
measure (Node _ smaller _ greater) = (a + b + 1, 1 + max m n)
  where
    (a, m) = measure smaller
    (b, n) = measure greater

gibbon_main :: [Int] -> Report
gibbon_main keys = Report size height tree
  where
    tree = insertAll keys Empty
    (size, height) = measure tree
