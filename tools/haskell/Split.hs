-- | Makes functions of the parts of a function that has more variables or expressions than Gib takes in one.
module Split (split, declaredAs, unusedName, placeIn) where

import Control.Monad.State (State, evalState, get, modify, put)
import Core
import Data.Functor.Const (Const (..))
import Data.List (maximumBy)
import qualified Data.Map as Map
import Data.Ord (comparing)
import qualified Data.Set as Set
import Fault (Place)
import Syntax (Name, Signature (..), Type (..), int)
import World

-- | A function, and those that parts of it became.
split :: Definition -> State World [Definition]
split definition
  | not (isOver most (weight (defBody definition) <> Weight (length (defParameters definition)) 0)) = pure [definition]
  | otherwise = case takenOut (defBody definition) of
    Nothing -> pure [definition]
    Just (name, part, put') -> do
      (call, function) <- ofItsOwn definition name part
      alone <- split function
      rest <- split definition {defBody = put' call}
      pure (rest ++ alone)

-- | How many variables an expression binds, and how many expressions it has.
data Weight = Weight {binds, holds :: Int}

instance Semigroup Weight where
  Weight a b <> Weight c d = Weight (a + c) (b + d)

instance Monoid Weight where
  mempty = Weight 0 0

-- | Gib takes 200 and 2,000, with what is named besides: parts of results, and what copies need.
most :: Weight
most = Weight 150 1500

isOver :: Weight -> Weight -> Bool
isOver bound found = binds found > binds bound || holds found > holds bound

weight :: Core -> Weight
weight core = here <> getConst (overParts (Const . weight) core)
  where
    here = case core of
      Case _ _ arms -> Weight (sum (map (length . binders) arms)) 1
      Let {} -> Weight 1 1
      Par {} -> Weight 2 1
      Remark _ _ -> mempty
      _ -> Weight 0 1

-- | The part that becomes a function: the heaviest one where none in it is too heavy, with what it is called, and what stands round it.
takenOut :: Core -> Maybe (Name, Core, Core -> Core)
takenOut core = case filter (isWorth . weight . snd) (zip [0 ..] (getConst (overParts (\part -> Const [part]) core))) of
  [] -> Nothing
  parts'
    | isOver (Weight 100 1000) (weight heaviest), Just (name, part, put') <- takenOut heaviest -> Just (name, part, \new -> replaced place (put' new) core)
    | otherwise -> Just (nameOf place, heaviest, \new -> replaced place new core)
    where
      (place, heaviest) = maximumBy (comparing (score . weight . snd)) parts'
  where
    isWorth found = binds found > 0 || holds found > 20
    score found = 10 * binds found + holds found
    nameOf place = case core of
      Case _ _ arms -> map constructor arms !! place
      _ -> "more"

-- | An expression with another part at a place.
replaced :: Int -> Core -> Core -> Core
replaced place new core = evalState (overParts next core) 0
  where
    next :: Core -> State Int Core
    next part = do
      here <- get
      put (here + 1)
      pure (if here == place then new else part)

-- | A part of a function as a function of its own, and the call of it.
ofItsOwn :: Definition -> Name -> Core -> State World (Core, Definition)
ofItsOwn definition name part = do
  here <- get
  let vars = Set.toList (unbound part)
      unused = [Var "at" (-1) int | null vars]
      function =
        definition
          { defName = unusedName here (defName definition ++ "_" ++ name),
            defParameters = vars ++ unused,
            defResult = typeOf here Map.empty part,
            defBody = part
          }
  modify (declaredAs function)
  pure (Call (placeIn definition part) (defName function) (map TVar (defVars definition)) (if null vars then [Number 0] else map Ref vars), function)

unusedName :: World -> Name -> Name
unusedName here name = head [other | other <- name : map ((name ++) . show) [2 :: Int ..], other `Map.notMember` declared here]

-- | What is declared, with a function.
declaredAs :: Definition -> World -> World
declaredAs function here = here {declared = Map.insert (defName function) signed (declared here)}
  where
    signed = Signature (defVars function) (map kind (defParameters function)) (defResult function)

placeIn :: Definition -> Core -> Place
placeIn definition core = case core of
  Remark place _ -> place
  _ -> defAt definition
