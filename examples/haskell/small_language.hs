-- | A small language: its types are checked, what is known is computed, and what is left is given with its type.
module SmallLanguage where

import Gibbon.Prelude

data Expr
  = Number Int
  | Truth Bool
  | Variable Int
  | Add Expr Expr
  | Multiply Expr Expr
  | Less Expr Expr
  | Equal Expr Expr
  | Not Expr
  | If Expr Expr Expr
  | Let Int Expr Expr

data Type = Whole | Boolean

-- | An expression without a type has the number of its faults.
data Checked
  = Wrong Int
  | Typed Type Expr

type Scope = [(Int, Type)]

typeIn :: Int -> Scope -> Maybe Type
typeIn _ [] = Nothing
typeIn name ((here, kind) : others)
  | name == here = Just kind
  | otherwise = typeIn name others

same :: Type -> Type -> Bool
same Whole Whole = True
same Boolean Boolean = True
same _ _ = False

-- | The type of an expression, and how many faults it has.
check :: Scope -> Expr -> (Maybe Type, Int)
check scope expr = case expr of
  Number _ -> (Just Whole, 0)
  Truth _ -> (Just Boolean, 0)
  Variable name -> case typeIn name scope of
    Nothing -> (Nothing, 1)
    found -> (found, 0)
  Add a b -> binary Whole Whole (check scope a) (check scope b)
  Multiply a b -> binary Whole Whole (check scope a) (check scope b)
  Less a b -> binary Whole Boolean (check scope a) (check scope b)
  Equal a b -> binary Whole Boolean (check scope a) (check scope b)
  Not a -> let (kind, faults) = check scope a in (Just Boolean, faults + expected Boolean kind)
  If test yes no ->
    let ((kind, f), ((left, g), (right, h))) = par (check scope test) (par (check scope yes) (check scope no))
     in (left, f + g + h + expected Boolean kind + agreed left right)
  Let name value body -> case check scope value of
    (Just kind, faults) -> let (result, more) = check ((name, kind) : scope) body in (result, faults + more)
    (Nothing, faults) -> (Nothing, faults)

binary :: Type -> Type -> (Maybe Type, Int) -> (Maybe Type, Int) -> (Maybe Type, Int)
binary due result (left, f) (right, g) = (Just result, f + g + expected due left + expected due right)

expected :: Type -> Maybe Type -> Int
expected due (Just kind) | not (same due kind) = 1
expected _ _ = 0

agreed :: Maybe Type -> Maybe Type -> Int
agreed (Just a) (Just b) | not (same a b) = 1
agreed _ _ = 0

-- | Computes what is known.
fold :: Expr -> Expr
fold expr = case expr of
  Add a b -> add (fold a) (fold b)
  Multiply a b -> multiply (fold a) (fold b)
  Less a b -> case (fold a, fold b) of
    (Number m, Number n) -> Truth (m < n)
    (c, d) -> Less c d
  Equal a b -> case (fold a, fold b) of
    (Number m, Number n) -> Truth (m == n)
    (c, d) -> Equal c d
  Not a -> case fold a of
    Truth b -> Truth (not b)
    Not b -> b
    b -> Not b
  If test yes no -> case fold test of
    Truth True -> fold yes
    Truth False -> fold no
    known -> let (a, b) = fold yes .||. fold no in If known a b
  Let name value body -> Let name (fold value) (fold body)
  _ -> expr

add :: Expr -> Expr -> Expr
add (Number 0) b = b
add a (Number 0) = a
add (Number m) (Number n) = Number (m + n)
-- Numbers go to the front, where others may meet them.
add a (Number n) = add (Number n) a
add (Number m) (Add (Number n) b) = Add (Number (m + n)) b
add a b = Add a b

multiply :: Expr -> Expr -> Expr
multiply (Number 0) _ = Number 0
multiply _ (Number 0) = Number 0
multiply (Number 1) b = b
multiply a (Number 1) = a
multiply (Number m) (Number n) = Number (m * n)
multiply a b = Multiply a b

gibbon_main :: Expr -> Checked
gibbon_main expr = case check [] expr of
  (Just kind, 0) -> Typed kind (fold expr)
  (_, faults) -> Wrong faults
