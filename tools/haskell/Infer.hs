{-# LANGUAGE FlexibleContexts #-}

-- | Finds the type of each expression by the signatures, and what stands for the type variables of each function and constructor that is used.
module Infer (infer, checkDatas, boundTypes) where

import Control.Monad (forM_, unless, when, zipWithM)
import Control.Monad.Reader (ReaderT, asks, runReaderT)
import Control.Monad.State (StateT, gets, modify, runStateT)
import Data.IntMap (IntMap)
import qualified Data.IntMap as IntMap
import Data.IntSet (IntSet)
import qualified Data.IntSet as IntSet
import Data.Map (Map)
import qualified Data.Map as Map
import qualified Data.Set as Set
import Fault
import Syntax
import World

-- | What is known of types so far, and the values that are compared, whose types have to be Int or Bool in the end.
-- Some unknown types are those of numbers. Haskell takes numbers of which nothing says the type for Integers, which do not wrap around: where one is
-- computed, it is of such a type, and has to be known in the end.
data Solver = Solver {next :: Int, solved :: IntMap Type, compared, computed :: [(Place, Type)], numeric :: IntSet}

type Infer = StateT Solver (ReaderT World (Either Fault))

type Locals = Map Name Type

-- | The types of all functions' bodies.
infer :: World -> Program () -> Either Fault (Program Type)
infer here whole = do
  found <- mapM (inferFunction here) (functions whole)
  pure whole {functions = found}

inferFunction :: World -> Function () -> Either Fault (Function Type)
inferFunction here function = do
  let known' = signature function
  (found, end) <- flip runReaderT here . flip runStateT (Solver 0 IntMap.empty [] [] IntSet.empty) $ do
    mapM_ (checkType (funAt function) (sigVars known')) (sigResult known' : parameters known')
    mapM (checkRow Map.empty (parameters known') (sigResult known')) (rows function)
  forM_ (reverse (compared end)) $ \(place, kind) ->
    let found' = settled (solved end) kind
     in unless (found' `elem` [int, bool]) . refuse place $
          "values of type " ++ showType found' ++ " cannot be compared: == and /= stand between two Int or two Bool; write a function"
  forM_ (reverse (computed end)) $ \(place, kind) ->
    when (isOpen (solved end) kind) $
      refuse place "nothing says that these numbers are Int, and Haskell takes Integers then, which do not wrap around: write (.. :: Int) round one of them"
  pure function {rows = map (fmap (settled (solved end))) found}

-- | Whether nothing is known of a type.
isOpen :: IntMap Type -> Type -> Bool
isOpen found kind = case kind of
  TMeta unsolved -> maybe True (isOpen found) (IntMap.lookup unsolved found)
  _ -> False

-- | A type with all that is known in it; what nothing says may be any type, and is Int.
settled :: IntMap Type -> Type -> Type
settled found kind = case kind of
  TMeta unsolved -> maybe int (settled found) (IntMap.lookup unsolved found)
  TCon name given -> TCon name (map (settled found) given)
  TVar _ -> kind

-- -- types ----------------------------------------------------------------------------------------------------------------------

fresh :: Infer Type
fresh = do
  made <- gets next
  modify (\solver -> solver {next = made + 1})
  pure (TMeta made)

-- | A type of numbers that is not known yet.
freshNumber :: Infer Type
freshNumber = do
  made <- fresh
  case made of
    TMeta unsolved -> made <$ modify (\solver -> solver {numeric = IntSet.insert unsolved (numeric solver)})
    _ -> pure made

-- | What is known of a type at its outside.
known1 :: Type -> Infer Type
known1 kind@(TMeta unsolved) = gets (IntMap.lookup unsolved . solved) >>= maybe (pure kind) known1
known1 kind = pure kind

-- | A type with all that is known in it so far.
current :: Type -> Infer Type
current kind = do
  outer <- known1 kind
  case outer of
    TCon name given -> TCon name <$> mapM current given
    _ -> pure outer

-- | Makes two types one: that which is due, and that of what stands at a place.
unify :: Place -> Type -> Type -> Infer ()
unify place due found = do
  agreed <- agree due found
  unless agreed $ do
    wanted <- current due
    there <- current found
    refuse place (standing there ++ " stands here, and " ++ due' wanted ++ " is due")
  where
    -- What is unknown and fits no type is one of numbers.
    standing (TMeta _) = "a number"
    standing kind = "a value of type " ++ showType kind
    due' (TMeta _) = "a number"
    due' kind = showType kind

agree :: Type -> Type -> Infer Bool
agree left right = do
  one <- known1 left
  other <- known1 right
  case (one, other) of
    (TMeta unsolved, TMeta same) | unsolved == same -> pure True
    (TMeta unsolved, _) -> solve unsolved other
    (_, TMeta unsolved) -> solve unsolved one
    (TVar name, TVar same) -> pure (name == same)
    (TCon name given, TCon same others)
      | name == same && length given == length others -> and <$> zipWithM agree given others
    _ -> pure False

solve :: Int -> Type -> Infer Bool
solve unsolved kind = do
  whole <- current kind
  isNumber <- gets (IntSet.member unsolved . numeric)
  if unsolved `elem` metas whole || isNumber && not (canBeNumber whole)
    then pure False
    else do
      modify (\solver -> solver {solved = IntMap.insert unsolved kind (solved solver)})
      when isNumber (modify (\solver -> solver {numeric = foldr IntSet.insert (numeric solver) (metas whole)}))
      pure True
  where
    metas (TMeta inner) = [inner]
    metas (TCon _ given) = concatMap metas given
    metas (TVar _) = []
    canBeNumber (TMeta _) = True
    canBeNumber found = found == int

-- | A signature with new types for its variables, and these.
instantiated :: [Name] -> [Type] -> Infer ([Type], [Type])
instantiated vars kinds = do
  given <- mapM (\var -> if var == number then freshNumber else fresh) vars
  pure (given, map (filled (Map.fromList (zip vars given))) kinds)

-- | The names in a type are declared.
checkType :: Place -> [Name] -> Type -> Infer ()
checkType place vars kind = do
  here <- asks id
  either (\(Fault at' message) -> refuse at' message) pure (typeFault here place vars kind)

typeFault :: World -> Place -> [Name] -> Type -> Either Fault ()
typeFault here place vars kind = case kind of
  TVar name -> unless (name `elem` vars) (refuse place ("no type variable " ++ name ++ ": declare it behind the type's name"))
  TMeta _ -> pure ()
  TCon name given -> case dataOf here name of
    Nothing -> refuse place ("no type " ++ name ++ ": declare it by data")
    Just found -> do
      when (length (dataVars found) /= length given) $
        refuse place (name ++ " has " ++ counted (length (dataVars found)) "type variable" ++ "; here are " ++ show (length given))
      mapM_ (typeFault here place vars) given

-- | Faults of declared types: names that stand twice, unknown ones, and numbers past the limits.
checkDatas :: World -> [Data] -> Either Fault ()
checkDatas here found = do
  twice "type" [(dataName one, dataAt one) | one <- found]
  twice "constructor" [(conName made, conAt made) | one <- found, made <- constructors one]
  forM_ found $ \one -> do
    twice "type variable" [(var, dataAt one) | var <- dataVars one]
    when (dataName one `elem` ["Int", "Bool"]) (refuse (dataAt one) (dataName one ++ " is there already: take another name"))
    forM_ (constructors one) $ \made -> do
      when (length (fields made) > mostFields) $
        refuse (conAt made) ("a constructor has at most " ++ show mostFields ++ " fields: put some into a type of their own")
      mapM_ (typeFault here (conAt made) (dataVars one)) (fields made)
  case drop mostConstructors [made | one <- found, made <- constructors one] of
    made : _ -> refuse (conAt made) ("a program has at most " ++ show mostConstructors ++ " constructors: let one with a number stand for several")
    [] -> pure ()
  where
    mostFields = 8
    mostConstructors = 200

twice :: String -> [(Name, Place)] -> Either Fault ()
twice sort found =
  case [(name, place) | (name, places) <- Map.toList gathered, place <- drop 1 places] of
    (name, place) : _ -> refuse place ("there is a " ++ sort ++ " " ++ name ++ " already: take another name")
    [] -> pure ()
  where
    gathered = Map.fromListWith (flip (++)) [(name, [place]) | (name, place) <- found]

-- -- expressions ----------------------------------------------------------------------------------------------------------------

checkRow :: Locals -> [Type] -> Type -> Row () -> Infer (Row Type)
checkRow locals kinds due row = do
  (pats, inner) <- checkPats locals kinds (patterns row)
  Row (rowAt row) pats <$> checkRhs inner due (rhs row)

checkRhs :: Locals -> Type -> Rhs () -> Infer (Rhs Type)
checkRhs locals due (Rhs several bindings) = do
  (bound, inner) <- checkBindings locals bindings
  found <- mapM (checkGuarded inner due) several
  pure (Rhs found bound)

checkGuarded :: Locals -> Type -> Guarded () -> Infer (Guarded Type)
checkGuarded locals due guarded = go locals [] (tests guarded)
  where
    go inner done (Holds expr : others) = checkExpr inner bool expr >>= \found -> go inner (Holds found : done) others
    go inner done (Matches pat expr : others) = do
      kind <- fresh
      found <- checkExpr inner kind expr
      (pats, more) <- checkPats inner [kind] [pat]
      go more (map (`Matches` found) pats ++ done) others
    go inner done [] = Guarded (guardedAt guarded) (reverse done) <$> checkExpr inner due (result guarded)

checkPats :: Locals -> [Type] -> [Pat ()] -> Infer ([Pat Type], Locals)
checkPats locals kinds pats = do
  found <- zipWithM checkPat kinds pats
  let bound = concatMap boundTypes found
  either (\(Fault place message) -> refuse place message) pure (bindTwice found)
  pure (found, Map.union (Map.fromList bound) locals)

bindTwice :: [Pat Type] -> Either Fault ()
bindTwice found = case [name | (name, count) <- Map.toList counts, count > 1] of
  name : _ -> refuse (patAt (last [pat | pat <- found, name `elem` names pat])) (name ++ " stands twice in these patterns: take two names, and compare them")
  [] -> pure ()
  where
    counts = Map.fromListWith (+) [(name, 1 :: Int) | pat <- found, name <- names pat]

boundTypes :: Pat Type -> [(Name, Type)]
boundTypes pat = case patForm pat of
  Bind name -> [(name, patNote pat)]
  As name inner -> (name, patNote pat) : boundTypes inner
  Made _ inner -> concatMap boundTypes inner
  TypedPat inner _ -> boundTypes inner
  Strict inner -> boundTypes inner
  _ -> []

checkPat :: Type -> Pat () -> Infer (Pat Type)
checkPat due pat = case patForm pat of
  Wild -> pure (made Wild)
  Bind name -> pure (made (Bind name))
  As name inner -> made . As name <$> checkPat due inner
  Literal found -> do
    kind <- freshNumber
    made (Literal found) <$ unify place due kind
  TypedPat inner kind -> unify place due kind >> checkPat due inner
  Strict inner -> made . Strict <$> checkPat due inner
  Made name inner -> do
    here <- asks (`knownOf` name)
    case here of
      Nothing -> refuse place ("no constructor " ++ name ++ ": declare it by data")
      Just found -> do
        when (length (ownFields found) /= length inner) (refuse place (countFault name "field" (length (ownFields found)) (length inner)))
        (given, kinds) <- instantiated (ownerVars found) (ownFields found)
        unify place due (TCon (owner found) given)
        made . Made name <$> zipWithM checkPat kinds inner
  where
    place = patAt pat
    made = Pat place due

countFault :: Name -> String -> Int -> Int -> String
countFault name thing due given
  | given < due && thing == "argument" = takes ++ ": functions are no values, so all of them stand here"
  | otherwise = takes ++ "; here are " ++ show given
  where
    takes = name ++ " has " ++ counted due thing

-- | Bindings in an order in which each uses those before it.
checkBindings :: Locals -> [Binding ()] -> Infer ([Binding Type], Locals)
checkBindings locals bindings = ordered bindings >>= go locals []
  where
    go inner done (binding : others) = do
      kind <- fresh
      found <- checkExpr inner kind (value binding)
      (pats, more) <- checkPats inner [kind] [target binding]
      go more (map (`Binding` found) pats ++ done) others
    go inner done [] = pure (reverse done, inner)

ordered :: [Binding ()] -> Infer [Binding ()]
ordered [] = pure []
ordered bindings = case break ready bindings of
  (before, one : after) -> (one :) <$> ordered (before ++ after)
  (stuck, []) -> refuse (patAt (target (head stuck))) "a value that is made of itself: declare a function on the top level, and call it"
  where
    names' = Set.fromList (concatMap (names . target) bindings)
    ready binding = Set.null (free (value binding) `Set.intersection` names')

checkExpr :: Locals -> Type -> Expr () -> Infer (Expr Type)
checkExpr locals due expr = case form expr of
  Named name _ -> checkCall locals due expr (Expr place () (Named name [])) []
  Number found -> do
    kind <- freshNumber
    made (Number found) <$ unify place due kind
  Apply function arguments -> checkCall locals due expr function arguments
  If test yes no -> (\t y n -> made (If t y n)) <$> checkExpr locals bool test <*> checkExpr locals due yes <*> checkExpr locals due no
  Case subject alternatives -> do
    kind <- fresh
    found <- checkExpr locals kind subject
    made . Case found <$> mapM (checkRow locals [kind] due) alternatives
  Let bindings body -> do
    (found, inner) <- checkBindings locals bindings
    made . Let found <$> checkExpr inner due body
  Choose choices -> made . Choose <$> checkRhs locals due choices
  Typed inner kind -> do
    unify place due kind
    checkExpr locals kind inner
  where
    place = at expr
    made = Expr place due

-- | A variable, or a function or constructor with its arguments.
checkCall :: Locals -> Type -> Expr () -> Expr () -> [Expr ()] -> Infer (Expr Type)
checkCall locals due expr function arguments = case form function of
  Named name _
    | Just kind <- Map.lookup name locals ->
      if null arguments
        then Expr place due (Named name []) <$ unify place due kind
        else refuse (at function) (name ++ " is a value here, and takes no arguments: functions are no values")
    | otherwise -> do
      here <- asks id
      case (Map.lookup name (declared here), knownOf here name, Map.lookup name primitives) of
        (Just found, _, _)
          | name `Set.member` borrowed here && name `Map.member` onNumbers -> applied name "argument" (anyNumber found)
          | otherwise -> applied name "argument" found
        (_, Just found, _) -> applied name "field" (Signature (ownerVars found) (ownFields found) (TCon (owner found) (map TVar (ownerVars found))))
        (_, _, Just found) -> applied name "argument" found
        _ -> refuse (at function) (unknown name)
  _ -> refuse place "what is called here is no function's name: declare a function on the top level, and call it with all its arguments"
  where
    place = at expr
    applied name thing found = do
      when (length (parameters found) /= length arguments) (refuse place (countFault name thing (length (parameters found)) (length arguments)))
      (given, kinds) <- instantiated (sigVars found) (sigResult found : parameters found)
      unify place due (head kinds)
      let numbers = [kind | (var, kind) <- zip (sigVars found) given, var == number]
      unless (isExact name) (modify (\solver -> solver {computed = map ((,) place) numbers ++ computed solver}))
      when (name `elem` ["==", "/="]) (modify (\solver -> solver {compared = (place, kinds !! 1) : compared solver}))
      inner <- zipWithM (checkExpr locals) (tail kinds) arguments
      let called = Expr (at function) due (Named name [kind | (var, kind) <- zip (sigVars found) given, var /= number])
      pure (if null arguments then called {at = place} else Expr place due (Apply called inner))

-- | A function on numbers, of any type of them.
anyNumber :: Signature -> Signature
anyNumber found = Signature (sigVars found ++ [number]) (map put (parameters found)) (put (sigResult found))
  where
    put kind = case kind of
      TCon "Int" [] -> TVar number
      TCon name given -> TCon name (map put given)
      _ -> kind

-- | Whether what a function computes of two numbers is the same for an Int and for an Integer.
isExact :: Name -> Bool
isExact name = name `elem` ["<", "<=", ">", ">="] || Map.findWithDefault False name onNumbers

-- | A name that is not there, and what would do.
unknown :: Name -> String
unknown name
  | name `elem` ["error", "undefined", "errorWithoutStackTrace"] = noFailing
  | name `elem` ["show", "print", "putStrLn", "read", "getLine", "interact"] = "there are no texts and no IO: the program takes one value, and gives one"
  | name `elem` ["map", "filter", "foldr", "foldl", "foldl'", "zipWith", "any", "all", "iterate", "until"] =
    name ++ " takes a function, and functions are no values: write a function that goes along the list"
  | name `elem` ["mod'", "sqrt", "fromIntegral", "/"] = "there are no fractions: count in a small unit by Int, and divide by quot"
  | otherwise = "no " ++ name ++ " here: declare it on the top level, or as a parameter, by a pattern or by let"
