-- | From cores to a program of Gib: names that it may have, tuples as results of several parts, and as data where they are kept.
module Lower (lower) where

import Control.Monad (unless, when)
import Core
import Data.Char (isAsciiLower, isAsciiUpper, isDigit)
import Data.List (mapAccumL, stripPrefix)
import Data.Map (Map)
import qualified Data.Map as Map
import Data.Maybe (fromMaybe, isJust)
import Data.Set (Set)
import qualified Data.Set as Set
import Fault
import qualified Gib as G
import Syntax (Constructor (..), Data (..), Name, Type (..), tupleName, tupleSize)
import Tidy (onlyOpened, openings)
import World

-- | The names that types, constructors and functions have, and the types of the parts that functions give.
data Tables = Tables {typeNames, madeNames, functionNames :: Map Name Name, partsOf :: Map Name [Type]}

-- | The program, with its entry as main.
lower :: World -> [Name] -> Name -> [Definition] -> Either Fault G.Program
lower here written entry definitions = do
  mapM_ Left (tooManyFunctions [defAt definition | definition <- definitions, defName definition /= entry])
  let functions = map (function tables) [definition | definition <- definitions, defName definition /= entry || isCalled]
  main' <- mapM (mainOf tables isCalled) [definition | definition <- definitions, defName definition == entry]
  pure (G.Program (map (dataOf' tables) used) (functions ++ main'))
  where
    isCalled = any ((entry `Set.member`) . calls . defBody) definitions
    used = usedDatas here written definitions
    tables =
      Tables
        { typeNames = namedApart plainType [dataName one | one <- used],
          madeNames = namedApart plainMade [conName one | found <- used, one <- constructors found],
          functionNames = namedApart plain [defName definition | definition <- definitions, defName definition /= entry || isCalled],
          partsOf = Map.fromList [(defName definition, parts) | definition <- definitions, Just parts <- [partsIn (defResult definition)]]
        }

-- | The types of the parts that a function with a result of this type gives.
partsIn :: Type -> Maybe [Type]
partsIn kind' = case kind' of
  TCon name given | Just size' <- tupleSize name, size' >= 2, size' <= mostParts -> Just given
  _ -> Nothing

mostParts :: Int
mostParts = 8

calls :: Core -> Set Name
calls core = Set.union here (foldMap calls (partsIn' core))
  where
    here = case core of
      Call _ name _ _ -> Set.singleton name
      _ -> Set.empty
    partsIn' = fst . overParts (\part -> ([part], part))

-- -- data -----------------------------------------------------------------------------------------------------------------------

-- | The declarations that the program has: those that are written, and those of Haskell that are used.
usedDatas :: World -> [Name] -> [Definition] -> [Data]
usedDatas here written definitions = [one | name <- ordered, name `notElem` ["Int", "Bool"], Just one <- [dataOf here name]]
  where
    reached = close (Set.fromList (concatMap inDefinition definitions ++ written))
    ordered = filter (`notElem` written) (Set.toList reached) ++ written
    close names
      | Set.size more == Set.size names = names
      | otherwise = close more
      where
        more = Set.union names (Set.fromList (concatMap typesIn (concatMap fieldsIn (Set.toList names))))
        fieldsIn name = concat [concatMap fields (constructors one) | Just one <- [dataOf here name]]
    inDefinition definition = concatMap typesIn (defResult definition : map kind (defParameters definition)) ++ inCore (defBody definition)
    inCore core = own core ++ concatMap inCore (fst (overParts (\part -> ([part], part)) core))
    own core = case core of
      Make _ name given _ -> maybe [] (\found -> [owner found]) (knownOf here name) ++ concatMap typesIn given
      Call _ _ given _ -> concatMap typesIn given
      Case _ var _ -> typesIn (kind var)
      Let _ var _ _ -> typesIn (kind var)
      _ -> []

typesIn :: Type -> [Name]
typesIn kind' = case kind' of
  TCon name given -> name : concatMap typesIn given
  _ -> []

dataOf' :: Tables -> Data -> G.Data
dataOf' tables one = G.Data (dataAt one) (typeNames tables Map.! dataName one) (map (vars Map.!) (dataVars one)) (map alternative (constructors one))
  where
    vars = namedApart plain (dataVars one)
    alternative made = G.Alternative (conAt made) (madeNames tables Map.! conName made) (map (kindOf tables vars) (fields made))

-- | The names of type variables.
type TypeVariables = Map Name Name

kindOf :: Tables -> TypeVariables -> Type -> G.Kind
kindOf tables vars kind' = case kind' of
  TCon name given -> G.Kind (Map.findWithDefault name name (typeNames tables)) (map (kindOf tables vars) given)
  TVar name -> G.Kind (Map.findWithDefault name name vars) []
  TMeta _ -> G.Kind "Int" []

-- -- names ----------------------------------------------------------------------------------------------------------------------

-- | Words of Gib, which are no names.
reserved :: Set Name
reserved = Set.fromList (words "data fun main let par and in if then else case of True False Int Bool quot rem")

-- | A name with the letters that Gib has.
plain :: Name -> Name
plain name = if null letters then "x" else letters
  where
    letters = dropWhile (not . isLetter) (map (\letter -> if isLetter letter || isDigit letter then letter else '_') own)
    -- Those of the library end with this.
    own = fromMaybe name (stripSuffix "'`" name)
    stripSuffix end text = reverse <$> stripPrefix (reverse end) (reverse text)
    isLetter letter = isAsciiLower letter || isAsciiUpper letter

plainType, plainMade :: Name -> Name
plainType name = fromMaybe (plain name) (lookup name (("[]", "List") : tupleNames))
plainMade name = fromMaybe (plain name) (lookup name ([("[]", "Nil"), (":", "Cons")] ++ tupleNames))

-- | What tuples are called where they are kept.
tupleNames :: [(Name, Name)]
tupleNames = [("()", "Unit"), ("(,)", "Pair"), ("(,,)", "Triple")] ++ [(tupleName parts, "Tuple" ++ show parts) | parts <- [4 .. mostParts]]

-- | A name that is like one and is none of those.
unlike :: Set Name -> Name -> Name
unlike others name = head [other | other <- name : map next [2 :: Int ..], other `Set.notMember` others]
  where
    next count = name ++ (if any isDigit (take 1 (reverse name)) then "_" else "") ++ show count

-- | Names for names: each its own where it may be, and no two the same.
namedApart :: (Name -> Name) -> [Name] -> Map Name Name
namedApart make found = foldl add (Map.fromList [(name, name) | name <- kept]) [name | name <- found, name `Set.notMember` Set.fromList kept]
  where
    kept = [name | name <- found, make name == name, name `Set.notMember` reserved]
    add known' name = Map.insert name (unlike (Set.union reserved (Set.fromList (Map.elems known'))) (make name)) known'

-- | What a variable is called, or what its parts are.
data Called = One Name | Several [Name]

-- | The variables in scope, and their names; and those that are known to be constructors without fields.
data Scope = Scope {called :: Map Var Called, constants :: Map Var Name, taken :: Set Name, typeVars :: TypeVariables}

-- | Scope with one more variable.
bind :: Scope -> Var -> (Scope, Name)
bind scope var = (scope {called = Map.insert var (One name) (called scope), taken = Set.insert name (taken scope)}, name)
  where
    name = unlike (Set.union reserved (taken scope)) (plain (hint var))

bindAll :: Scope -> [Var] -> (Scope, [Name])
bindAll = mapAccumL bind

-- | Scope with a variable of which the parts have names, those of the cases on it.
bindParts :: Scope -> Var -> [Var] -> (Scope, [Name])
bindParts scope var parts = (inner {called = Map.insert var (Several names) (called scope)}, names)
  where
    (inner, names) = bindAll scope parts

-- -- functions ------------------------------------------------------------------------------------------------------------------

function :: Tables -> Definition -> G.Function
function tables definition = functionOf tables definition (Map.lookup (defName definition) (partsOf tables)) (functionNames tables Map.! defName definition)

functionOf :: Tables -> Definition -> Maybe [Type] -> Name -> G.Function
functionOf tables definition parts name =
  G.Function
    { G.functionAt = defAt definition,
      G.functionName = name,
      G.typeVariables = map (vars Map.!) (defVars definition),
      G.parameters = zip names (map (kindOf tables vars . kind) (defParameters definition)),
      G.results = map (kindOf tables vars) (fromMaybe [defResult definition] parts),
      G.body = maybe value parted parts tables scope (defBody definition)
    }
  where
    vars = namedApart plain (defVars definition)
    (scope, names) = bindAll (Scope Map.empty Map.empty Set.empty vars) (defParameters definition)

-- | The entry as main, or main that calls it.
mainOf :: Tables -> Bool -> Definition -> Either Fault G.Function
mainOf tables isCalled definition = do
  when (length (defParameters definition) /= 1) . refuse (defAt definition) $
    defName definition ++ " has to have one parameter, the program's input: let it be a tuple, or a type with all that comes in"
  unless (null (defVars definition)) . refuse (defAt definition) $
    defName definition ++ " has type variables: say which types it takes and gives"
  pure (functionOf tables definition {defBody = body'} Nothing "main")
  where
    body'
      | isCalled = Call (defAt definition) (defName definition) [] (map Ref (defParameters definition))
      | otherwise = defBody definition

-- -- expressions ----------------------------------------------------------------------------------------------------------------

-- | An expression that gives one value.
value :: Tables -> Scope -> Core -> G.Expr
value tables scope core = case core of
  -- It is written again, since what is handed on from one value to the next is found by one step more each time.
  Ref var | Just name <- Map.lookup var (constants scope), TCon _ given <- kind var -> go (Make nowhere name given [])
  Ref var -> G.Expr nowhere (G.Variable (nameOf scope var))
  Number number' -> numeral number'
  Truth truth -> G.Expr nowhere (G.Truth truth)
  Operate place operation left right -> G.Expr place (G.Operate operation (go left) (go right))
  Call place name _ _ | Just parts <- Map.lookup name (partsOf tables) -> kept place parts
  Call place name given arguments -> G.Expr place (callOf tables scope name given arguments)
  Make place name given arguments -> G.Expr place (G.Make (madeNames tables Map.! name) (map (kindOf tables (typeVars scope)) given) (map go arguments))
  Remark place inner -> G.Expr place (G.Remark (go inner))
  _ -> structure value tables scope core
  where
    go = value tables scope
    -- A result of several parts as one value.
    kept place parts = G.Expr place (G.Let names (parted parts tables scope core) (G.Expr place made))
      where
        (inner, names) = bindAll scope (zipWith (\count part -> Var [count] (-1 - fromEnum count) part) ['a' ..] parts)
        made = G.Make (madeNames tables Map.! tupleName (length parts)) (map (kindOf tables (typeVars inner)) parts) (map (G.Expr place . G.Variable) names)

callOf :: Tables -> Scope -> Name -> [Type] -> [Core] -> G.Form
callOf tables scope name given arguments =
  G.Call (functionNames tables Map.! name) (map (kindOf tables (typeVars scope)) given) (map (value tables scope) arguments)

-- | A number; Gib writes no negative ones.
numeral :: Integer -> G.Expr
numeral number'
  | number' >= 0 = literal number'
  | number' == toInteger (minBound :: Int) = minus (minus (literal 0) (literal (-1 - number'))) (literal 1)
  | otherwise = minus (literal 0) (literal (negate number'))
  where
    literal = G.Expr nowhere . G.Number
    minus left right = G.Expr nowhere (G.Operate G.Subtract left right)

nameOf :: Scope -> Var -> Name
nameOf scope var = case Map.lookup var (called scope) of
  Just (One name) -> name
  _ -> hint var

-- | An expression that gives parts of these types.
parted :: [Type] -> Tables -> Scope -> Core -> G.Expr
parted parts tables scope core = case core of
  Make place name _ arguments | isJust (tupleSize name) -> G.Expr place (G.Parts (map (value tables scope) arguments))
  Call place name given arguments
    | name `Map.member` partsOf tables -> G.Expr place (callOf tables scope name given arguments)
    | otherwise -> takenApart place (\inner -> G.Expr place . G.Let [inner] (value tables scope core))
  Ref var -> G.Expr nowhere (apart (nameOf scope var) scope)
  Remark place inner -> G.Expr place (G.Remark (parted parts tables scope inner))
  _ -> structure (parted parts) tables scope core
  where
    takenApart place named = named name (G.Expr place (apart name inner))
      where
        (inner, name) = bind scope (Var "parts" (-1) (TCon (tupleName (length parts)) parts))
    apart name inner = G.Case name [(madeNames tables Map.! tupleName (length parts), names, made)]
      where
        made = G.Expr nowhere (G.Parts (map (G.Expr nowhere . G.Variable) names))
        (_, names) = bindAll inner (zipWith (\count part -> Var [count] (-2 - fromEnum count) part) ['a' ..] parts)

-- | What stands round values and parts alike.
structure :: (Tables -> Scope -> Core -> G.Expr) -> Tables -> Scope -> Core -> G.Expr
structure go tables scope core = case core of
  If place test yes no -> G.Expr place (G.If (value tables scope test) (go tables scope yes) (go tables scope no))
  Case place var arms -> cased go tables scope place var arms
  Let place var found rest ->
    let (inner, names, side) = bound tables scope var found rest
     in G.Expr place (G.Let names side (go tables inner rest))
  Par place one left other right rest ->
    -- The right side does not see the left one's names, though its own are others.
    let (some, names, leftSide) = bound tables scope one left rest
        (inner, others, _) = bound tables some other right rest
        (_, _, rightSide) = bound tables scope other right rest
     in G.Expr place (G.Par names leftSide others rightSide (go tables inner rest))
  Force _ rest -> go tables scope rest
  Spark _ rest -> go tables scope rest
  Label _ _ _ rest -> go tables scope rest
  _ -> value tables scope core

-- | A value's name, or the names of its parts where cases alone look at it, and the value.
bound :: Tables -> Scope -> Var -> Core -> Core -> (Scope, [Name], G.Expr)
bound tables scope var found rest = case partsIn (kind var) of
  Just parts
    | onlyOpened var rest && givesParts tables found ->
      let (inner, names) = bindParts scope var (openings (tupleName (length parts)) var rest)
       in (inner, names, parted parts tables scope found)
  _ ->
    let (inner, name) = bind scope var
     in (inner, [name], value tables scope found)

-- | Whether an expression of a tuple's type gives parts somewhere.
givesParts :: Tables -> Core -> Bool
givesParts tables core = case core of
  Make _ name _ _ -> isJust (tupleSize name)
  Call _ name _ _ -> name `Map.member` partsOf tables
  If _ _ yes no -> givesParts tables yes || givesParts tables no
  Case _ _ arms -> any (givesParts tables . armBody) arms
  Let _ _ _ rest -> givesParts tables rest
  Par _ _ _ _ _ rest -> givesParts tables rest
  Remark _ rest -> givesParts tables rest
  _ -> False

cased :: (Tables -> Scope -> Core -> G.Expr) -> Tables -> Scope -> Place -> Var -> [Arm] -> G.Expr
cased go tables scope place var arms = case (Map.lookup var (called scope), arms) of
  (Just (Several names), [Arm _ vars rest]) ->
    go tables scope {called = Map.union (Map.fromList (zip vars (map One names))) (called scope)} rest
  _ -> G.Expr place (G.Case (nameOf scope var) (map arm arms))
  where
    arm (Arm name vars rest) =
      let (inner, names) = bindAll (if null vars then scope {constants = Map.insert var name (constants scope)} else scope) vars
       in (madeNames tables Map.! name, names, go tables inner rest)
