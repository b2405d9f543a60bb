-- | Values behind a `where` that not every way needs, and that have no value on some: each is made where it is looked at.
module Late where

data Operation = Plus | Minus | Times | Over

data Task
  = Two Operation Int Int
  | One Operation Int

-- | Several equations lead to the last one. Its share has no value where n is 0, and what is more has none where n is 5.
eval :: Task -> Int -> Int
eval (Two Plus a b) _ = a + b
eval (One Minus a) n = a - n
eval (Two _ a _) n
  | a > 100 = 7
eval task n
  | n == 5 = 5
  | n /= 0 && share > 3 = share
  | n == 0 = weight task + 1 + weight task * 3 - weight task + 4 + weight task * 5
  | otherwise = weight task + share * 2 - weight task * 3 + more + share
  where
    share = 100 `quot` n
    (more, _) = (share + 1 `quot` (n - 5), 3 `quot` (n - 5))

weight :: Task -> Int
weight (Two _ a b) = a + b
weight (One _ a) = a

-- | A call behind a `where` ends since it is made on one way alone.
count :: Int -> Int
count n
  | n > 0 && less > 3 = less - 1
  | n > 0 || other > 2 = 5 + n
  | otherwise = 1
  where
    less = count (n - 1)
    other = if n < 0 - 5 then 1 else count (n - 1)

evalAll :: [(Task, Int)] -> [Int]
evalAll [] = []
evalAll ((task, n) : rest) = eval task n : evalAll rest

gibbon_main :: (Int, [(Task, Int)]) -> (Int, [Int])
gibbon_main (n, tasks) = (count (n `rem` 15), evalAll tasks)
