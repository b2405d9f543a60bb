-- | Types and functions of Haskell's Prelude that a program may use without declaring them. A name with a prime is the library's own. Functions call
-- themselves and such ones alone, since a program may declare the others itself. `append'` is what `++` stands for.
module Library where

data Maybe a = Nothing | Just a

data Either a b = Left a | Right b

data Ordering = LT | EQ | GT

minBound :: Int
minBound = -9223372036854775808

maxBound :: Int
maxBound = 9223372036854775807

max :: Int -> Int -> Int
max a b = if a < b then b else a

min :: Int -> Int -> Int
min a b = if b < a then b else a

abs :: Int -> Int
abs n = if n < 0 then 0 - n else n

signum :: Int -> Int
signum n = if n < 0 then -1 else if n == 0 then 0 else 1

subtract :: Int -> Int -> Int
subtract a b = b - a

even :: Int -> Bool
even n = n `rem` 2 == 0

odd :: Int -> Bool
odd n = n `rem` 2 /= 0

div :: Int -> Int -> Int
div a b = div' a b

div' :: Int -> Int -> Int
div' a b = if r /= 0 && (r < 0) /= (b < 0) then q - 1 else q
  where
    q = a `quot` b
    r = a `rem` b

mod :: Int -> Int -> Int
mod a b = mod' a b

mod' :: Int -> Int -> Int
mod' a b = if r /= 0 && (r < 0) /= (b < 0) then r + b else r
  where
    r = a `rem` b

quotRem :: Int -> Int -> (Int, Int)
quotRem a b = (a `quot` b, a `rem` b)

divMod :: Int -> Int -> (Int, Int)
divMod a b = (div' a b, mod' a b)

gcd :: Int -> Int -> Int
gcd a b = gcdOf' (if a < 0 then 0 - a else a) (if b < 0 then 0 - b else b)

gcdOf' :: Int -> Int -> Int
gcdOf' a b = if b == 0 then a else gcdOf' b (a `rem` b)

compare :: Int -> Int -> Ordering
compare a b = if a < b then LT else if a == b then EQ else GT

fst :: (a, b) -> a
fst (a, _) = a

snd :: (a, b) -> b
snd (_, b) = b

id :: a -> a
id a = a

const :: a -> b -> a
const a _ = a

null :: [a] -> Bool
null [] = True
null (_ : _) = False

length :: [a] -> Int
length list = lengthFrom' 0 list

lengthFrom' :: Int -> [a] -> Int
lengthFrom' count [] = count
lengthFrom' count (_ : rest) = lengthFrom' (count + 1) rest

append' :: [a] -> [a] -> [a]
append' [] back = back
append' (first : rest) back = first : append' rest back

reverse :: [a] -> [a]
reverse list = reverseOnto' [] list

reverseOnto' :: [a] -> [a] -> [a]
reverseOnto' done [] = done
reverseOnto' done (first : rest) = reverseOnto' (first : done) rest

concat :: [[a]] -> [a]
concat [] = []
concat (first : rest) = append' first (concat rest)

sum :: [Int] -> Int
sum list = sumFrom' 0 list

sumFrom' :: Int -> [Int] -> Int
sumFrom' total [] = total
sumFrom' total (first : rest) = sumFrom' (total + first) rest

product :: [Int] -> Int
product list = productFrom' 1 list

productFrom' :: Int -> [Int] -> Int
productFrom' total [] = total
productFrom' total (first : rest) = productFrom' (total * first) rest

replicate :: Int -> a -> [a]
replicate count a = if count <= 0 then [] else a : replicate (count - 1) a

take :: Int -> [a] -> [a]
take count list = if count <= 0 then [] else takeSome' count list

takeSome' :: Int -> [a] -> [a]
takeSome' _ [] = []
takeSome' count (first : rest) = first : take (count - 1) rest

drop :: Int -> [a] -> [a]
drop count list = if count <= 0 then list else dropSome' count list

dropSome' :: Int -> [a] -> [a]
dropSome' _ [] = []
dropSome' count (_ : rest) = drop (count - 1) rest

zip :: [a] -> [b] -> [(a, b)]
zip [] _ = []
zip (_ : _) [] = []
zip (a : more) (b : others) = (a, b) : zip more others

unzip :: [(a, b)] -> ([a], [b])
unzip [] = ([], [])
unzip ((a, b) : rest) = let (more, others) = unzip rest in (a : more, b : others)
