-- | Finds where a program's calls go too deep, or where it divides by 0: lets it happen once more, as Gib's own evaluator does.
module Run (Value, Stop (..), stopOf, readValue) where

import Data.List (partition, sortOn)
import Data.Map.Strict (Map)
import qualified Data.Map.Strict as Map
import Fault (Place, nowhere)
import Gib

data Value = Whole !Int | Flag !Bool | Built String [Value]

-- | Why a program has no value, and where that is in the Haskell source.
data Stop = Depth Place | Division Place

type Scope = Map String Value

-- | The functions of a program, and whether the fields of its constructors are numbers or truth values.
data Runner = Runner {functionsOf :: Map String Function, scalars :: Map String [Bool]}

-- | What stops a program on a value, with so many calls open at a time.
stopOf :: Program -> Int -> Value -> Maybe Stop
stopOf program depth input = either Just (const Nothing) (entered runner depth nowhere "main" [input])
  where
    runner =
      Runner
        { functionsOf = Map.fromList [(functionName function, function) | function <- functions program],
          scalars = Map.fromList [(made alternative, map isScalar (fields alternative)) | found <- datas program, alternative <- alternatives found]
        }
    isScalar (Kind name _) = name `elem` ["Int", "Bool"]

entered :: Runner -> Int -> Place -> String -> [Value] -> Either Stop [Value]
entered runner depth place name arguments = case Map.lookup name (functionsOf runner) of
  Just function -> values runner depth place (Map.fromList (zip (map fst (parameters function)) arguments)) (body function)
  Nothing -> Right []

-- | What an expression gives: one value, or parts. The place is that of the last expression that comes from the source.
values :: Runner -> Int -> Place -> Scope -> Expr -> Either Stop [Value]
values runner depth place scope expr = case form expr of
  Variable name -> Right [scope Map.! name]
  Number number -> Right [Whole (fromInteger number)]
  Truth truth -> Right [Flag truth]
  Operate operation left right -> do
    one <- value left
    other <- value right
    (: []) <$> operated here operation one other
  Call name _ arguments -> do
    given <- mapM value arguments
    if depth == 0 then Left (Depth here) else entered runner (depth - 1) here name given
  Make name _ arguments -> do
    given <- scalarsFirst (Map.findWithDefault [] name (scalars runner)) arguments
    Right [Built name given]
  Parts parts -> scalarsFirst [] parts
  If test yes no -> do
    chosen <- value test
    go scope (case chosen of Flag False -> no; _ -> yes)
  Case name arms -> case scope Map.! name of
    Built made' given | (_, names, inner) : _ <- filter (\(other, _, _) -> other == made') arms -> go (bound names given scope) inner
    _ -> Right []
  Let names side rest -> do
    found <- go scope side
    go (bound names found scope) rest
  Par one left other right rest -> do
    found <- go scope left
    more <- go scope right
    go (bound other more (bound one found scope)) rest
  Remark inner -> go scope inner
  where
    here = if at expr == nowhere then place else at expr
    go = values runner depth here
    value part = (\found -> case found of one : _ -> one; [] -> Whole 0) <$> go scope part
    bound names found outer = foldr (uncurry Map.insert) outer (zip names found)
    -- Numbers and truth values are made before trees.
    scalarsFirst known parts = do
      let (early, late) = partition isEarly (zip3 [0 :: Int ..] (known ++ repeat False) parts)
      found <- mapM (\(count, _, part) -> (,) count <$> value part) (early ++ late)
      Right (map snd (sortOn fst found))
    isEarly (_, isScalar, part) = isScalar || isNumber (form part)
    isNumber Operate {} = True
    isNumber _ = False

operated :: Place -> Operation -> Value -> Value -> Either Stop Value
operated here operation (Whole a) (Whole b) = case operation of
  Add -> Right (Whole (a + b))
  Subtract -> Right (Whole (a - b))
  Multiply -> Right (Whole (a * b))
  Equal -> Right (Flag (a == b))
  Less -> Right (Flag (a < b))
  Quot | b == 0 -> Left (Division here)
  Quot -> Right (Whole (if b == -1 then negate a else a `quot` b))
  Rem | b == 0 -> Left (Division here)
  Rem -> Right (Whole (if b == -1 then 0 else a `rem` b))
operated _ _ one _ = Right one

-- | The value of a text.
readValue :: String -> Maybe Value
readValue text = case tokensOf text of
  [] -> Nothing
  tokens -> fst <$> valueOf tokens

tokensOf :: String -> [String]
tokensOf = words . concatMap (\letter -> if letter `elem` "()" then [' ', letter, ' '] else [letter])

valueOf :: [String] -> Maybe (Value, [String])
valueOf tokens = case tokens of
  "(" : name : rest -> manyOf rest >>= \(parts, after) -> Just (Built name parts, after)
  word : rest
    | word `elem` ["True", "False"] -> Just (Flag (word == "True"), rest)
    | [(number, "")] <- reads word -> Just (Whole number, rest)
    | word /= ")" -> Just (Built word [], rest)
  _ -> Nothing

manyOf :: [String] -> Maybe ([Value], [String])
manyOf (")" : rest) = Just ([], rest)
manyOf tokens = do
  (first, rest) <- valueOf tokens
  (others, after) <- manyOf rest
  Just (first : others, after)
