{-# LANGUAGE FlexibleContexts #-}

-- | Reads patterns, expressions and what is named in functions.
module Expressions (readRhs, readPat) where

import Control.Monad (when)
import Control.Monad.Reader (asks)
import Data.List (intercalate)
import Data.Map (Map)
import qualified Data.Map as Map
import Data.Maybe (catMaybes)
import Fault
import qualified Language.Haskell.Exts as H
import Reading
import Syntax
import World (noFailing, ofLibrary, spark)

readRhs :: Place -> H.Rhs Info -> Maybe (H.Binds Info) -> Front (Rhs ())
readRhs place choices bindings = Rhs <$> guarded <*> maybe (pure []) readBindings bindings
  where
    guarded = case choices of
      H.UnGuardedRhs _ body -> (\expr -> [Guarded place [] expr]) <$> readExpr body
      H.GuardedRhss _ several -> atMost 200 "guards" several >> mapM readGuarded several

readGuarded :: H.GuardedRhs Info -> Front (Guarded ())
readGuarded guarded@(H.GuardedRhs _ statements body) = Guarded <$> anchored (placeOf guarded) <*> mapM readTest statements <*> readExpr body

readTest :: H.Stmt Info -> Front (Test ())
readTest statement = case statement of
  H.Qualifier _ expr -> Holds <$> readExpr expr
  H.Generator _ pat expr -> Matches <$> readPat pat <*> readExpr expr
  _ -> refuse (placeOf statement) "no let in a guard: name the value by where"

readBindings :: H.Binds Info -> Front [Binding ()]
readBindings (H.BDecls _ declarations) = do
  atMost 200 "values that are named" [declaration | declaration@H.PatBind {} <- declarations]
  signatures <- Map.fromList . concat <$> mapM readLocal declarations
  found <- catMaybes <$> mapM (readBinding signatures) declarations
  checkTwice [(name, patAt (target binding)) | binding <- found, name <- names (target binding)]
  pure found
readBindings other = refuse (placeOf other) "implicit parameters: write them as parameters"

-- | The type of a value that has a name of its own.
readLocal :: H.Decl Info -> Front [(Name, Type)]
readLocal declaration@(H.TypeSig _ valueNames kind) = case arrows kind of
  [_] -> mapM (\name -> (,) <$> named name <*> readType kind) valueNames
  _ -> refuse (placeOf declaration) noLocalFunctions
readLocal _ = pure []

noLocalFunctions :: String
noLocalFunctions = "a function in a function: declare it on the top level, with what it uses as parameters"

readBinding :: Map Name Type -> H.Decl Info -> Front (Maybe (Binding ()))
readBinding signatures declaration = case declaration of
  H.PatBind _ pat choices bindings -> do
    place <- anchored (placeOf declaration)
    bound <- readPat pat
    body <- readRhs place choices bindings
    pure (Just (Binding bound (annotated bound (valueOf place body))))
  H.FunBind {} -> refuse (placeOf declaration) noLocalFunctions
  H.TypeSig {} -> pure Nothing
  H.InlineSig {} -> pure Nothing
  _ -> refuse (placeOf declaration) "no counterpart for this declaration: values alone are named in a function"
  where
    annotated bound expr = case patForm bound of
      Bind name | Just kind <- Map.lookup name signatures -> expr {form = Typed expr kind}
      _ -> expr

-- | What a right side gives as one value.
valueOf :: Place -> Rhs () -> Expr ()
valueOf _ (Rhs [Guarded _ [] expr] []) = expr
valueOf place body = Expr place () (Choose body)

-- -- patterns -------------------------------------------------------------------------------------------------------------------

readPat :: H.Pat Info -> Front (Pat ())
readPat pat = deeper place $ case pat of
  H.PVar _ name -> made . Bind <$> named name
  H.PWildCard _ -> pure (made Wild)
  H.PParen _ inner -> readPat inner
  H.PBangPat _ inner -> made . Strict <$> readPat inner
  H.PAsPat _ name inner -> (\text -> made . As text) <$> named name <*> readPat inner
  H.PLit _ sign (H.Int _ number _) -> made . Literal <$> inRange place (signed sign number)
  H.PLit _ _ literal -> refuse place (noLiteral literal)
  H.PTuple _ H.Boxed parts -> tupleOf (\text -> made . Made text) readPat parts
  H.PList _ elements -> foldr (\first rest -> made (Made ":" [first, rest])) (made (Made "[]" [])) <$> mapM readPat elements
  H.PApp _ name parts -> (\text -> made . Made text) <$> constructorName name <*> mapM readPat parts
  H.PInfixApp _ left name right -> (\text first second -> made (Made text [first, second])) <$> constructorName name <*> readPat left <*> readPat right
  H.PatTypeSig _ inner kind -> (\bound known -> made (TypedPat bound known)) <$> readPat inner <*> readType kind
  H.PIrrPat {} -> refuse place "a pattern that is looked at late: take the ~ away, since values are there before a call"
  H.PRec {} -> refuse place "a record: write the constructor with a pattern for each field"
  H.PViewPat {} -> refuse place "a call in a pattern: name what it gives, and look at that by case"
  H.PNPlusK {} -> refuse place "n + k in a pattern: write n, and take k away"
  _ -> refuse place "no counterpart for this pattern: a pattern is a name, _, a number, a constructor, a list or a tuple"
  where
    place = placeOf pat
    made = Pat place ()
    signed H.Signless {} number = number
    signed H.Negative {} number = negate number

constructorName :: H.QName Info -> Front Name
constructorName name = case name of
  H.UnQual _ plain -> named plain
  H.Special _ H.UnitCon {} -> pure "()"
  H.Special _ H.ListCon {} -> pure "[]"
  H.Special _ H.Cons {} -> pure ":"
  H.Special _ (H.TupleCon _ H.Boxed size) -> pure (tupleName size)
  _ -> refuse (placeOf name) "a name of another module: a program is one file"

-- | A number that an Int can be.
inRange :: Place -> Integer -> Front Integer
inRange place number
  | number > toInteger (maxBound :: Int) = refuse place ("the greatest Int is " ++ show (maxBound :: Int))
  | number < toInteger (minBound :: Int) = refuse place ("the least Int is " ++ show (minBound :: Int))
  | otherwise = pure number

noLiteral :: H.Literal Info -> String
noLiteral literal = case literal of
  H.Char {} -> noTexts
  H.String {} -> noTexts
  H.Frac {} -> noFloats
  _ -> "no counterpart for this literal: a number is an Int"

-- -- expressions ----------------------------------------------------------------------------------------------------------------

readExpr :: H.Exp Info -> Front (Expr ())
readExpr expr = deeper place $ case expr of
  H.Paren _ inner -> readExpr inner
  H.Var _ name -> (\text -> made (Named text [])) <$> variableName name
  H.Con _ name -> (\text -> made (Named text [])) <$> constructorName name
  H.Lit _ (H.Int _ number _) -> made . Number <$> inRange place number
  H.Lit _ literal -> refuse place (noLiteral literal)
  H.NegApp _ (H.Lit _ (H.Int _ number _)) -> made . Number <$> inRange place (negate number)
  H.NegApp _ inner -> (\operand -> made (call "negate" [operand])) <$> readExpr inner
  H.App _ (H.Var _ (H.UnQual _ (H.Ident _ "error"))) _ -> refuse place noFailing
  H.App {} -> let (function, arguments) = spine expr in applyTo place <$> readExpr function <*> mapM readExpr arguments
  H.InfixApp _ left operator right -> readOperation place left operator right
  H.If _ test yes no -> (\t y n -> made (If t y n)) <$> readExpr test <*> readExpr yes <*> readExpr no
  H.MultiIf _ choices -> (\several -> made (Choose (Rhs several []))) <$> mapM readGuarded choices
  H.Case _ subject alternatives -> do
    atMost 1000 "alternatives" alternatives
    (\s -> made . Case s) <$> readExpr subject <*> mapM readAlternative alternatives
  H.Let _ bindings body -> (\several -> made . Let several) <$> readBindings bindings <*> readExpr body
  H.Tuple _ H.Boxed parts -> tupleOf (\text -> made . call text) readExpr parts
  H.List _ elements -> foldr (\first rest -> made (call ":" [first, rest])) (made (Named "[]" [])) <$> mapM readExpr elements
  H.ExpTypeSig _ inner kind -> (\value' -> made . Typed value') <$> readExpr inner <*> readType kind
  _ -> refuse place (noForm expr)
  where
    place = placeOf expr
    made = Expr place ()
    call name = Apply (made (Named name []))

-- | A call's function and its arguments.
spine :: H.Exp Info -> (H.Exp Info, [H.Exp Info])
spine = go []
  where
    go given (H.App _ function argument) = go (argument : given) function
    go given (H.Paren _ inner@H.App {}) = go given inner
    go given function = (function, given)

-- | A call; one of a call takes the arguments of both.
applyTo :: Place -> Expr () -> [Expr ()] -> Expr ()
applyTo place function given = case form function of
  Apply inner before | Named name _ <- form inner, tupleSize name `elem` [Nothing] -> Expr place () (Apply inner (before ++ given))
  _ -> Expr place () (Apply function given)

readOperation :: Place -> H.Exp Info -> H.QOp Info -> H.Exp Info -> Front (Expr ())
readOperation place left operator right = do
  name <- case operator of
    H.QVarOp _ text -> variableName text
    H.QConOp _ text -> constructorName text
  when (name == ".") (refuse (placeOf operator) noFunctions)
  first <- readExpr left
  second <- readExpr right
  pure $ case name of
    "$" -> applyTo place first [second]
    "$!" -> applyTo place first [second]
    _ -> Expr place () (Apply (Expr (placeOf operator) () (Named name [])) [first, second])

variableName :: H.QName Info -> Front Name
variableName name = case name of
  H.UnQual _ (H.Symbol _ "++") -> pure (ofLibrary "append'")
  H.UnQual _ (H.Symbol _ text) -> pure text
  H.UnQual _ plain -> do
    hints <- asks sparks
    (\text -> if hints && text == "par" then spark else text) <$> named plain
  _ -> refuse (placeOf name) "a name of another module: a program is one file"

readAlternative :: H.Alt Info -> Front (Row ())
readAlternative alternative@(H.Alt _ pat choices bindings) = do
  place <- anchored (placeOf alternative)
  Row place <$> mapM readPat [pat] <*> readRhs place choices bindings

noFunctions :: String
noFunctions = "functions are no values: declare a function on the top level, and call it with all its arguments"

-- | Why an expression is refused, and what would do.
noForm :: H.Exp Info -> String
noForm expr = case expr of
  H.Lambda {} -> noFunctions
  H.LCase {} -> noFunctions
  H.LeftSection {} -> noFunctions
  H.RightSection {} -> noFunctions
  H.TupleSection {} -> noFunctions
  H.Do {} -> "there is no do: the program takes one value and gives one; name values by let"
  H.MDo {} -> "there is no do: the program takes one value and gives one; name values by let"
  H.RecConstr {} -> "a record: write the constructor and its fields"
  H.RecUpdate {} -> "a record: take its fields by a pattern, and make a new value of them"
  H.EnumFrom {} -> noRange
  H.EnumFromTo {} -> noRange
  H.EnumFromThen {} -> noRange
  H.EnumFromThenTo {} -> noRange
  H.ListComp {} -> "there are no list comprehensions: write a function that goes along the list"
  _ -> "no counterpart for this expression in " ++ intercalate ", " ["calls", "constructors", "if", "case", "let", "lists", "tuples", "numbers"]
  where
    noRange = "there are no ranges: write a function that makes the list"
