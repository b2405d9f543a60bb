-- | What is declared: types, constructors and functions, those that Haskell brings among them.
module World
  ( World (..),
    Known (..),
    world,
    dataOf,
    knownOf,
    primitives,
    spark,
    ofLibrary,
    number,
    onNumbers,
    tooManyFunctions,
    noFailing,
    filled,
    showType,
    counted,
  )
where

import Data.List (intercalate)
import Data.Map (Map)
import qualified Data.Map as Map
import Data.Maybe (listToMaybe)
import Data.Set (Set)
import qualified Data.Set as Set
import Fault (Fault (..), Place, nowhere)
import Syntax

-- | A constructor, with the type that it belongs to.
data Known = Known {owner :: Name, ownerVars :: [Name], ownFields :: [Type]}

data World = World
  { -- | The functions that the library has, and the program not.
    borrowed :: Set Name,
    types :: Map Name Data,
    known :: Map Name Known,
    declared :: Map Name Signature
  }

world :: Program a -> Program a -> World
world written program' =
  World
    { borrowed = Set.fromList (map funName (functions program')) `Set.difference` Set.fromList (map funName (functions written)),
      types = Map.fromList [(dataName one, one) | one <- everyData],
      known = Map.fromList [(conName made, Known (dataName one) (dataVars one) (fields made)) | one <- everyData, made <- constructors one],
      declared = Map.fromList [(funName function, signature function) | function <- functions program']
    }
  where
    everyData = builtIn ++ datas program'

builtIn :: [Data]
builtIn =
  [ Data nowhere "Int" [] [],
    Data nowhere "Bool" [] [made "False" [], made "True" []],
    Data nowhere "[]" ["a"] [made "[]" [], made ":" [TVar "a", list (TVar "a")]]
  ]
  where
    made = Constructor nowhere

-- | A declared type, or that of tuples.
dataOf :: World -> Name -> Maybe Data
dataOf here name = case tupleSize name of
  Nothing -> Map.lookup name (types here)
  Just size -> Just (Data nowhere name (tupleVars size) [Constructor nowhere name (map TVar (tupleVars size))])

knownOf :: World -> Name -> Maybe Known
knownOf here name = case tupleSize name of
  Nothing -> Map.lookup name (known here)
  Just size -> Just (Known name (tupleVars size) (map TVar (tupleVars size)))

tupleVars :: Int -> [Name]
tupleVars size = take size (map (: []) ['a' .. 'z'] ++ map (("a" ++) . show) [1 :: Int ..])

-- | The name that `par` of Control.Parallel has here, which gives its second argument.
spark :: Name
spark = "`par`"

-- | A name that the library has for itself.
ofLibrary :: Name -> Name
ofLibrary = (++ "`")

-- | Functions that no declaration stands for: operations, and what says that values are worked on at the same time.
primitives :: Map Name Signature
primitives =
  Map.fromList $
    [(name, Signature [number] [n, n] n) | name <- ["+", "-", "*", "quot", "rem"]]
      ++ [(name, Signature [number] [n, n] bool) | name <- ["<", "<=", ">", ">="]]
      ++ [(name, Signature ["a"] [a, a] bool) | name <- ["==", "/="]]
      ++ [(name, Signature [] [bool, bool] bool) | name <- ["&&", "||"]]
      ++ [(name, Signature ["a", "b"] [a, b] (tuple [a, b])) | name <- ["par", ".||."]]
      ++ [(name, Signature ["a", "b"] [a, b] b) | name <- ["seq", "pseq", spark]]
      ++ [ ("not", Signature [] [bool] bool),
           ("negate", Signature [number] [n] n),
           ("otherwise", Signature [] [] bool),
           ("spawn", Signature ["a"] [a] a),
           ("sync", Signature [] [] (tuple []))
         ]
  where
    a = TVar "a"
    b = TVar "b"
    n = TVar number

-- | The type variable that stands for a type of numbers, of which there is one here; Haskell has more.
number :: Name
number = "number`"

-- | The library's functions on numbers of any type: what they take and give has it in place of Int. Each is what it is for Int alone where it is
-- exact for the numbers of an Int.
onNumbers :: Map Name Bool
onNumbers =
  Map.fromList $
    map (\name -> (name, True)) ["max", "min", "even", "odd", "compare"]
      ++ map (\name -> (name, False)) ["abs", "signum", "subtract", "div", "mod", "quotRem", "divMod", "gcd", "sum", "product"]

-- | The fault of functions past those that a program may have besides its entry.
tooManyFunctions :: [Place] -> Maybe Fault
tooManyFunctions places = listToMaybe [Fault place ("a program has at most " ++ show most ++ " functions: this is one more") | place <- drop most places]
  where
    most = 1000 :: Int

noFailing :: String
noFailing = "nothing fails on purpose: give a value that tells of it"

-- | A type with what stands for its variables.
filled :: Map Name Type -> Type -> Type
filled given kind = case kind of
  TVar name -> Map.findWithDefault kind name given
  TCon name inner -> TCon name (map (filled given) inner)
  TMeta _ -> kind

-- | A type as Haskell writes it.
showType :: Type -> String
showType kind = case kind of
  TCon "[]" [element] -> "[" ++ showType element ++ "]"
  TCon name given
    | Just _ <- tupleSize name -> "(" ++ intercalate ", " (map showType given) ++ ")"
    | otherwise -> unwords (name : map inner given)
  TVar name -> name
  TMeta _ -> "_"
  where
    inner part@(TCon name (_ : _)) | name /= "[]", Nothing <- tupleSize name = "(" ++ showType part ++ ")"
    inner part = showType part

counted :: Int -> String -> String
counted 1 thing = "1 " ++ thing
counted several thing = show several ++ " " ++ thing ++ "s"
