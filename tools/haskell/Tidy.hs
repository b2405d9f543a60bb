-- | Puts each value where it is needed first, as Haskell evaluates it, and makes functions of what several places go on with.
module Tidy (tidy, onlyOpened, openings) where

import Control.Monad.State (State, evalState, get, gets, modify, put, runState)
import Core
import Data.Functor.Const (Const (..))
import Data.Functor.Identity (Identity (..))
import qualified Data.Map as Map
import Data.Monoid (Sum (..))
import Data.Set (Set)
import qualified Data.Set as Set
import Fault (Place)
import Split (declaredAs, placeIn, split, unusedName)
import Syntax (Name, Type (..), int)
import World

-- | A function, and those that it became besides, with what they declare. It is there in two ways: where what several places go on with becomes a function,
-- a value that is handed on to it would be made before the call, used or not, and the second way is taken, in which that function makes it.
tidy :: World -> (Definition, Definition) -> (World, [Definition])
tidy here (definition, other) = case tidied here definition of
  (after, [alone]) -> whole after [alone]
  _ -> uncurry whole (tidied here other)
  where
    whole after found = let (several, end) = runState (mapM split found) after in (end, concat several)

tidied :: World -> Definition -> (World, [Definition])
tidied here definition = (world' end, done : reverse (made end))
  where
    (done, end) = runState (lifted definition {defBody = body}) (Lifting here [])
    body = direct . unforced . paired . inlined . flip evalState firstLabel . sink . opened . inlined $ defBody definition
    -- Those of patterns are below.
    firstLabel = 1000000000

unforced :: Core -> Core
unforced core = case core of
  Force _ body -> unforced body
  Spark _ body -> unforced body
  _ -> every unforced core

-- | What is named and then given is given at once: it can be written where the result belongs.
direct :: Core -> Core
direct core = case every direct core of
  Let _ var value (Ref other) | var == other -> value
  Let _ var value (Remark at' (Ref other)) | var == other -> Remark at' value
  done -> done

-- | Makes pairs of values that are named together, where a hint says that another worker may make the one.
paired :: Core -> Core
paired core = case letsOf core of
  ([], _) -> every paired core
  (lets, rest)
    | (one, place, value) : _ <- filter isSparked lets,
      (other, _, value') : _ <- filter (\(var, _, found) -> var /= one && isHinted var && not (isUsed (Set.singleton one) found)) lets,
      not (isUsed (Set.singleton other) value),
      (early, late) <- apartFrom (Set.fromList [one, other]) [found | found@(var, _, _) <- lets, var `notElem` [one, other]],
      not (any (\(var, _, _) -> isUsed (Set.singleton var) value || isUsed (Set.singleton var) value') late) ->
      foldr named (Par place one (paired value) other (paired value') (paired (foldr named rest late))) early
    | otherwise -> foldr named (every paired rest) lets
    where
      (sparked, forced) = hintsOf rest
      isSparked (var, _, _) = var `elem` sparked
      isHinted var = var `elem` sparked ++ forced
  where
    named (var, place, value) = Let place var value

-- | The values that are named in front of an expression.
letsOf :: Core -> ([(Var, Place, Core)], Core)
letsOf core = case core of
  Let place var value body -> let (lets, rest) = letsOf body in ((var, place, value) : lets, rest)
  Remark _ body | (lets@(_ : _), rest) <- letsOf body -> (lets, rest)
  _ -> ([], core)

-- | The values that an expression hints at, and those that it waits for.
hintsOf :: Core -> ([Var], [Var])
hintsOf core = case core of
  Spark var body -> let (sparked, forced) = hintsOf body in (var : sparked, forced)
  Force var body -> let (sparked, forced) = hintsOf body in (sparked, var : forced)
  Remark _ body -> hintsOf body
  _ -> ([], [])

-- | Those that use none of some variables, and those that do, themselves or by others.
apartFrom :: Set Var -> [(Var, Place, Core)] -> ([(Var, Place, Core)], [(Var, Place, Core)])
apartFrom vars lets = case lets of
  [] -> ([], [])
  found@(var, _, value) : others
    | isUsed vars value -> (found :) <$> apartFrom (Set.insert var vars) others
    | otherwise -> let (early, late) = apartFrom vars others in (found : early, late)

every :: (Core -> Core) -> Core -> Core
every go = runIdentity . overParts (Identity . go)

-- -- labels ---------------------------------------------------------------------------------------------------------------------

jumps :: Int -> Core -> Int
jumps label core = case core of
  Jump other _ | other == label -> 1
  _ -> getSum (getConst (overParts (Const . Sum . jumps label) core))

-- | Puts what is gone on with at one place there, and what is short everywhere.
inlined :: Core -> Core
inlined core = case core of
  Label label vars inner body
    | count == 0 -> rest
    | count == 1 || size there <= length vars + 6 -> put' rest
    | otherwise -> Label label vars there rest
    where
      there = inlined inner
      rest = inlined body
      count = jumps label rest
      put' part = case part of
        Jump other taken | other == label -> renamed (Map.fromList (zip vars taken)) there
        _ -> every put' part
  _ -> every inlined core

-- | What is known while functions are made: all signatures, and those that were made.
data Lifting = Lifting {world' :: World, made :: [Definition]}

-- | A function without labels, and what is gone on with as functions of their own.
lifted :: Definition -> State Lifting Definition
lifted definition = do
  body <- liftLabels definition (defBody definition)
  pure definition {defBody = body}

liftLabels :: Definition -> Core -> State Lifting Core
liftLabels definition core = case core of
  Label label vars inner body -> do
    here <- gets world'
    let more = Set.toList (unbound inner `Set.difference` Set.fromList vars)
        unused = [Var "at" (-1) int | null (vars ++ more)]
        name = unusedName here (defName definition ++ "_otherwise")
        call taken = Call (placeIn definition inner) name (map TVar (defVars definition)) (if null unused then map Ref (taken ++ more) else [Number 0])
        function = definition {defName = name, defParameters = vars ++ more ++ unused, defResult = typeOf here Map.empty inner, defBody = inner}
    modify (\state -> state {world' = declaredAs function here})
    done <- lifted function
    modify (\state -> state {made = done : made state})
    liftLabels definition (jumpsAs call label body)
  _ -> overParts (liftLabels definition) core

-- | An expression with calls where it would go on at a label.
jumpsAs :: ([Var] -> Core) -> Int -> Core -> Core
jumpsAs call label core = case core of
  Jump other taken | other == label -> call taken
  _ -> every (jumpsAs call label) core

-- -- values ---------------------------------------------------------------------------------------------------------------------

-- | Takes values apart that a case looks at where they are made, and names what they are made of before them.
opened :: Core -> Core
opened core = case every opened core of
  Let place var (Remark _ value) body -> opened (Let place var value body)
  Let place var (Let inner other value rest) body -> Let inner other value (opened (Let place var rest body))
  Let place var (Par inner one left other right rest) body -> Par inner one left other right (opened (Let place var rest body))
  Let place var (Make _ name _ parts) body
    | not (null parts), onlyOpened var body -> partsNamed place (openings name var body) parts (\vars -> madeBy var name vars body)
  done -> done

-- | The names that cases give to the parts of a variable that is made by a constructor, the first ones.
openings :: Name -> Var -> Core -> [Var]
openings name var core = case core of
  Case _ other arms | other == var, arm : _ <- filter ((== name) . constructor) arms -> binders arm
  _ -> concat (take 1 (filter (not . null) (getConst (overParts (\part -> Const [openings name var part]) core))))

-- | Whether a case looks at a variable.
isOpened :: Var -> Core -> Bool
isOpened var core = case core of
  Case _ other _ | other == var -> True
  _ -> or (getConst (overParts (\part -> Const [isOpened var part]) core))

-- | Whether a variable is used by cases alone, and by some.
onlyOpened :: Var -> Core -> Bool
onlyOpened var core = isOpened var core && not (asValue core)
  where
    asValue part = case part of
      Ref other -> other == var
      Jump _ taken -> var `elem` taken
      Force other _ | other == var -> True
      Spark other _ | other == var -> True
      _ -> or (getConst (overParts (\inner -> Const [asValue inner]) part))

-- | Names parts that have none.
partsNamed :: Place -> [Var] -> [Core] -> ([Var] -> Core) -> Core
partsNamed place vars parts body = go (zip vars parts) []
  where
    go ((_, Ref other) : more) done = go more (other : done)
    go ((var, part) : more) done = Let place var part (go more (var : done))
    go [] done = body (reverse done)

-- | An expression in which a variable is known to be made by a constructor with these parts.
madeBy :: Var -> Name -> [Var] -> Core -> Core
madeBy var name parts core = case core of
  Case _ other arms
    | other == var, arm : _ <- filter ((== name) . constructor) arms -> madeBy var name parts (renamed (Map.fromList (zip (binders arm) parts)) (armBody arm))
  _ -> every (madeBy var name parts) core

-- | A value with its names, and with the names of what it is taken apart into at once.
data Group = Group {groupVars :: Set Var, before :: Core -> Core, isCheap :: Bool}

-- | Puts each value before what surely needs it, into the ways on which it is used. What nothing uses is never made.
sink :: Core -> State Int Core
sink core = do
  done <- overParts sink core
  case done of
    Let _ var value _
      | (group, body) <- groupOf done ->
        if isSimple value && isUsed (Set.singleton var) body then pure done else settle group body
    Par {} | (group, body) <- groupOf done -> settle group body
    _ -> pure done

groupOf :: Core -> (Group, Core)
groupOf core = case core of
  Let at' var value body -> inside (Group (Set.singleton var) (Let at' var value) (hasNoCall value)) body
  Par at' one left other right body ->
    inside (Group (Set.fromList [one, other]) (Par at' one left other right) (hasNoCall left && hasNoCall right)) body
  _ -> (Group Set.empty id True, core)
  where
    inside group body = case body of
      Case at' var [Arm name vars rest]
        | var `Set.member` groupVars group ->
          inside group {groupVars = Set.union (Set.fromList vars) (groupVars group), before = before group . Case at' var . (: []) . Arm name vars} rest
      _ -> (group, body)

hasNoCall :: Core -> Bool
hasNoCall core = case core of
  Call {} -> False
  _ -> and (getConst (overParts (\part -> Const [hasNoCall part]) core))

settle :: Group -> Core -> State Int Core
settle group core
  | not (used core) = pure core
  | isNeeded (groupVars group) core = pure (before group core)
  | otherwise = case core of
    If at' test yes no
      | used test -> splitTest group at' test yes no
      | otherwise -> If at' test <$> settle group yes <*> settle group no
    Case at' var arms -> Case at' var <$> mapM (\arm -> (\body -> arm {armBody = body}) <$> settle group (armBody arm)) arms
    Label label vars inner body
      | used inner && used body && isCheap group -> Label label vars <$> settle group inner <*> settle group body
    _
      | length (filter used (partsOf core)) == 1 -> overParts (\part -> if used part then settle group part else pure part) core
      | otherwise -> pure (before group core)
  where
    used = isUsed (groupVars group)
    partsOf = getConst . overParts (\part -> Const [part])

-- | A choice whose test needs the value on one of its ways alone: the test's own choice comes first.
splitTest :: Group -> Place -> Core -> Core -> Core -> State Int Core
splitTest group at' test yes no = case test of
  If inner first one other | not (isUsed (groupVars group) first) -> do
    label <- get
    put (label + 2)
    let asked answer = choice at' answer (Jump label []) (Jump (label + 1) [])
    settle group (inlined (Label label [] yes (Label (label + 1) [] no (If inner first (asked one) (asked other)))))
  _ -> pure (before group (If at' test yes no))
