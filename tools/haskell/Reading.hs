{-# LANGUAGE FlexibleContexts #-}

-- | What holds while a file's text is read: names, types and places of haskell-src-exts.
module Reading
  ( Info,
    Synonyms,
    Around (..),
    Front,
    Kept (..),
    begun,
    inOneDeclaration,
    anchored,
    placeOf,
    checkTwice,
    deeper,
    atMost,
    tupleOf,
    headOf,
    named,
    textOf,
    arrows,
    variablesOf,
    readType,
    noClasses,
    noFloats,
    noTexts,
  )
where

import Control.Monad (when)
import Control.Monad.Except (throwError)
import Control.Monad.Reader (ReaderT, asks, local)
import Control.Monad.State (StateT, gets, modify)
import Data.Char (isAscii)
import Data.Map (Map)
import qualified Data.Map as Map
import Fault
import qualified Language.Haskell.Exts as H
import Syntax
import World (counted, filled, ofLibrary)

type Info = H.SrcSpanInfo

-- | A type synonym: its variables and what it stands for.
type Synonyms = Map Name ([Name], Type)

-- | What holds round an expression.
-- `sparks` says that `par` is that of Control.Parallel, which hints; Gibbon's makes two
-- values. `isLibrary` says that names with a prime are the library's own.
data Around = Around {level :: Int, synonyms :: Synonyms, sparks, isLibrary :: Bool}

-- | What is kept while a file is read: the places that comments may stand at, and how many parts a declaration has so far.
data Kept = Kept {kept :: [Place], partsSoFar :: !Int}

type Front = StateT Kept (ReaderT Around (Either Fault))

-- | Where nothing is read yet.
begun :: Kept
begun = Kept [] 0

-- | Reads one declaration, whose parts are counted.
inOneDeclaration :: Front a -> Front a
inOneDeclaration inner = modify (\state -> state {partsSoFar = 0}) >> inner

-- | Keeps a place that comments may stand at.
anchored :: Place -> Front Place
anchored place = modify (\state -> state {kept = place : kept state}) >> pure place

placeOf :: H.Annotated ast => ast Info -> Place
placeOf node = Place (H.srcSpanStartLine range) (H.srcSpanStartColumn range)
  where
    range = H.srcInfoSpan (H.ann node)

checkTwice :: [(Name, Place)] -> Front ()
checkTwice found = mapM_ twice (take 1 [(name, place) | (name, places) <- Map.toList gathered, place <- drop 1 places])
  where
    gathered = Map.fromListWith (flip (++)) [(name, [place]) | (name, place) <- found]
    twice (name, place) = refuse place (name ++ " is declared already: equations of one function stand together, and each name has one signature")

-- | The deepest level of nesting; the language that is written has one too.
deepest :: Int
deepest = 200

-- | No declaration of more types, patterns and expressions becomes one that Gib takes.
mostParts :: Int
mostParts = 10000

-- | Reads a part: a type, a pattern or an expression.
deeper :: Place -> Front a -> Front a
deeper place inner = do
  here <- asks level
  count <- gets partsSoFar
  when (count >= mostParts) (refuse place ("a declaration with more than " ++ show mostParts ++ " expressions, patterns and types up to here: make two of it"))
  modify (\state -> state {partsSoFar = count + 1})
  when (here >= deepest) (refuse place ("nested more than " ++ show deepest ++ " levels deep: give a part a function of its own"))
  local (\around -> around {level = here + 1}) inner

-- | Refuses more of what stands side by side than one function of Gib takes.
atMost :: H.Annotated ast => Int -> String -> [ast Info] -> Front ()
atMost most things found = mapM_ tooMany (take 1 (drop most found))
  where
    tooMany one = refuse (placeOf one) ("more than " ++ show most ++ " " ++ things ++ " up to here: make two functions of it")

-- | A tuple of these parts, which are read.
tupleOf :: H.Annotated ast => (Name -> [a] -> b) -> (ast Info -> Front a) -> [ast Info] -> Front b
tupleOf make readPart parts = do
  mapM_ (\part -> refuse (placeOf part) "a tuple has at most 8 parts: put some into a type of their own") (take 1 (drop 8 parts))
  make (tupleName (length parts)) <$> mapM readPart parts

-- -- names -----------------------------------------------------------------------------------------------------------------------

headOf :: H.DeclHead Info -> Either Fault (Name, [Name])
headOf heading = case heading of
  H.DHead _ name -> (\text -> (text, [])) <$> plainName name
  H.DHApp _ inner variable -> do
    (name, vars) <- headOf inner
    var <- variableOf variable
    pure (name, vars ++ [var])
  H.DHParen _ inner -> headOf inner
  H.DHInfix {} -> refuse (placeOf heading) "a type that is an operator: give it a name"

variableOf :: H.TyVarBind Info -> Either Fault Name
variableOf (H.UnkindedVar _ name) = plainName name
variableOf other = refuse (placeOf other) "a kind: type variables stand for types alone"

-- | A name of ASCII letters.
plainName :: H.Name Info -> Either Fault Name
plainName name = case name of
  H.Symbol _ text -> refuse (placeOf name) ("the operator " ++ text ++ " cannot be declared: give it a name")
  H.Ident _ text
    | all isAscii text -> Right text
    | otherwise -> refuse (placeOf name) "a name with a letter that is no ASCII: names have the letters a to z and A to Z, digits, _ and '"

textOf :: H.Name Info -> String
textOf (H.Ident _ text) = text
textOf (H.Symbol _ text) = text

named :: H.Name Info -> Front Name
named name = do
  text <- either throwError pure (plainName name)
  inLibrary <- asks isLibrary
  pure (if inLibrary && last text == '\'' then ofLibrary text else text)

-- -- types -----------------------------------------------------------------------------------------------------------------------

arrows :: H.Type Info -> [H.Type Info]
arrows (H.TyFun _ from to) = from : arrows to
arrows kind = [kind]

-- | The variables of types, in order, each once.
variablesOf :: [Type] -> [Name]
variablesOf = foldl (\seen name -> if name `elem` seen then seen else seen ++ [name]) [] . concatMap within
  where
    within (TVar name) = [name]
    within (TCon _ given) = concatMap within given
    within (TMeta _) = []

noClasses :: String
noClasses = "there are no classes: write a function for each type, or give each key a number by which it is ordered"

readType :: H.Type Info -> Front Type
readType kind = deeper place $ case kind of
  H.TyVar _ name -> TVar <$> named name
  H.TyParen _ inner -> readType inner
  H.TyBang _ _ _ inner -> readType inner
  H.TyList _ element -> list <$> readType element
  H.TyTuple _ H.Boxed parts -> tupleOf TCon readType parts
  H.TyFun {} -> refuse place "functions are no values: declare the function, and call it by its name"
  H.TyForall {} -> refuse place "a type with variables of its own: only a function's whole type has some"
  _ -> applied kind []
  where
    place = placeOf kind

-- | A type's name and what stands behind it.
applied :: H.Type Info -> [H.Type Info] -> Front Type
applied kind given = case kind of
  H.TyApp _ function argument -> applied function (argument : given)
  H.TyParen _ inner -> applied inner given
  H.TyCon _ (H.UnQual _ name) -> do
    text <- named name
    types <- mapM readType given
    known <- asks (Map.lookup text . synonyms)
    case known of
      Just (vars, meaning)
        | length vars == length types -> pure (filled (Map.fromList (zip vars types)) meaning)
        | otherwise -> refuse place (text ++ " stands for a type with " ++ counted (length vars) "variable" ++ ", and here are " ++ show (length types))
      Nothing -> maybe (pure (TCon text types)) (refuse place) (noType text)
  H.TyCon _ (H.Special _ H.UnitCon {}) | null given -> pure (TCon "()" [])
  H.TyCon _ (H.Special _ H.ListCon {}) | [element] <- given -> list <$> readType element
  H.TyVar {} -> refuse place "a variable stands for a whole type, and takes none"
  _ -> refuse place "no counterpart for this type: a type is a declared one, Int, Bool, a list or a tuple"
  where
    place = placeOf kind

-- | Types of Haskell that are not there, with what stands for them.
noType :: Name -> Maybe String
noType name = case name of
  "Integer" -> Just "there is no Integer: numbers are Int, of 64 bits, that wrap around"
  "Word" -> Just "there is no Word: numbers are Int, of 64 bits, that wrap around"
  "Float" -> Just noFloats
  "Double" -> Just noFloats
  "Rational" -> Just noFloats
  "Char" -> Just noTexts
  "String" -> Just noTexts
  "IO" -> Just "there is no IO: the program takes one value, and gives one"
  _ -> Nothing

noFloats, noTexts :: String
noFloats = "there are no fractions: count in a small unit by Int"
noTexts = "there are no texts: number the names, or write a type with a constructor for each"
