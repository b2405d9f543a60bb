{-# LANGUAGE FlexibleContexts #-}

-- | From equations with nested patterns and guards to cases with an arm for each constructor.
module Match (definitions) where

import Control.Monad (when)
import Control.Monad.Reader (ReaderT, asks, runReaderT)
import Control.Monad.State (StateT, evalStateT, get, gets, modify, put)
import Core
import Data.Char (toLower)
import Data.List (intercalate, maximumBy, partition)
import Data.Map (Map)
import qualified Data.Map as Map
import Data.Maybe (catMaybes, fromMaybe, isNothing, listToMaybe, mapMaybe)
import Data.Ord (comparing)
import Data.Set (Set)
import qualified Data.Set as Set
import Fault
import Infer (boundTypes)
import Syntax hiding (Form (..))
import qualified Syntax as S
import World

data Context = Context
  { here :: World,
    -- | The names that patterns of the program give to a constructor's fields.
    fieldNames :: Map Name [Maybe Name],
    -- | Whether values behind a @where@ are made by each result that needs them.
    isLate :: Bool
  }

-- | Counts the variables and labels that are made, and keeps what rows that are left at several places become, with its label.
data Made' = Made' {next :: Int, leftovers :: Map [Leftover] Int, residues :: [Labelled]}

type Match = StateT Made' (ReaderT Context (Either Fault))

-- | A row that is left: where it stands, what it still tests, and what its names stand for.
type Leftover = (Place, [(Var, Place)], [(Name, Var)])

-- | What the names in scope stand for.
type Env = Map Name Var

-- | All functions in two ways: as one reads them, with each value behind a @where@ once, and with those values in each result that needs them and that no
-- test looks at.
definitions :: World -> Program Type -> Either Fault [(Definition, Definition)]
definitions known' whole = zip <$> by False <*> by True
  where
    by late = runReaderT (evalStateT (mapM definition (functions whole)) (Made' 0 Map.empty [])) (Context known' fieldNames' late)
    fieldNames' = namesOfFields whole

-- | Of each constructor's fields the names that the first patterns give them.
namesOfFields :: Program a -> Map Name [Maybe Name]
namesOfFields whole = Map.fromListWith (flip (zipWith orElse)) (concatMap (concatMap inRow . rows) (functions whole))
  where
    orElse (Just name) _ = Just name
    orElse Nothing other = other
    inRow row = concatMap inPat (patterns row) ++ inRhs (rhs row)
    inRhs (Rhs several bindings) = concatMap inGuarded several ++ concatMap inBinding bindings
    inGuarded guarded = concat [inPat pat | Matches pat _ <- tests guarded] ++ inExpr (result guarded)
    inBinding binding = inPat (target binding) ++ inExpr (value binding)
    inExpr expr = case form expr of
      S.Apply _ given -> concatMap inExpr given
      S.If test yes no -> concatMap inExpr [test, yes, no]
      S.Case subject alternatives -> inExpr subject ++ concatMap inRow alternatives
      S.Let bindings body -> concatMap inBinding bindings ++ inExpr body
      S.Choose choices -> inRhs choices
      S.Typed inner _ -> inExpr inner
      _ -> []
    inPat pat = case patForm pat of
      Made name inner -> (name, map nameOf inner) : concatMap inPat inner
      As _ inner -> inPat inner
      Strict inner -> inPat inner
      TypedPat inner _ -> inPat inner
      _ -> []

-- | The name that a pattern gives to what it looks at.
nameOf :: Pat a -> Maybe Name
nameOf pat = case patForm pat of
  Bind name -> Just name
  As name _ -> Just name
  Strict inner -> nameOf inner
  TypedPat inner _ -> nameOf inner
  _ -> Nothing

definition :: Function Type -> Match Definition
definition function = do
  vars <- mapM parameter (zip [0 ..] (parameters known'))
  body <- matchRows (MatchOf (funName function) (funAt function) vars) Map.empty vars (rows function)
  -- A value without a parameter is a function of one that nothing looks at.
  unused <- if null vars then (: []) <$> fresh "at" int else pure []
  pure (Definition (funAt function) (funName function) (sigVars known') (vars ++ unused) (sigResult known') body)
  where
    known' = signature function
    parameter (column', kind') = fresh (fromMaybe (defaultName kind') (listToMaybe (mapMaybe (nameOf . (!! column') . patterns) (rows function)))) kind'

-- -- variables ------------------------------------------------------------------------------------------------------------------

count :: Match Int
count = do
  state <- get
  next state <$ put state {next = next state + 1}

fresh :: Name -> Type -> Match Var
fresh name kind' = (\made -> Var name made kind') <$> count

-- | What a value is called that no pattern names: by its type.
defaultName :: Type -> Name
defaultName kind' = case kind' of
  TCon "Int" _ -> "n"
  TCon "Bool" _ -> "flag"
  TCon "[]" _ -> "list"
  TCon "()" _ -> "unit"
  TCon name@(first : rest) _ -> maybe (toLower first : rest) (const "parts") (tupleSize name)
  _ -> "value"

-- -- patterns -------------------------------------------------------------------------------------------------------------------

-- | What is matched, for what is said where something is missing: whose equations, where, and on what.
data MatchOf = MatchOf Name Place [Var]

-- | What is still to be tried: the tests of variables that are left, what its names stand for, and how it ends, with what comes where its guards fail.
data Candidate = Candidate
  { rowPlace :: Place,
    own :: Set Name,
    left :: [(Var, Pat Type)],
    env :: Env,
    canFail :: Bool,
    finish :: Env -> Match Core -> Match Core
  }

-- | The first of some rows whose patterns fit.
matchRows :: MatchOf -> Env -> [Var] -> [Row Type] -> Match Core
matchRows what outer vars several = do
  compiled <- mapM (candidateOf outer vars) several
  outside <- get
  put outside {leftovers = Map.empty, residues = []}
  tree <- match what Map.empty (map snd compiled)
  shared' <- gets (reverse . residues)
  modify (\state -> state {leftovers = leftovers outside, residues = residues outside})
  pure (foldr (\(label, taken, body) -> Label label taken body) tree (concatMap fst compiled ++ shared'))

type Labelled = (Int, [Var], Core)

candidateOf :: Env -> [Var] -> Row Type -> Match ([Labelled], Candidate)
candidateOf outer vars row = do
  apart' <- asks isLate
  let isEarly binding = isStrict binding || any (`Set.member` used) (names (target binding))
      (early, late) = if apart' then partition isEarly bindings else (bindings, [])
  labelled <- mapM (labelledOf outer (concatMap boundTypes (patterns row ++ map target early)) late) several
  let try inner failed = bound inner early (\scope -> foldr (guardedBy scope) failed (zip several labelled))
      ofRow = Set.fromList (concatMap names (patterns row))
  pure (map (\(made, _, _) -> made) labelled, normal (Candidate (rowAt row) ofRow (zip vars (patterns row)) outer (all mayFail several) try))
  where
    Rhs several bindings = rhs row
    -- Values that the tests use, and those that are made before them, are handed on; the others are made where the results need them.
    used = neededBy bindings (Set.unions (map freeTests several))
    isStrict binding = case patForm (target binding) of
      Strict _ -> True
      _ -> False
    guardedBy scope (guarded, ((label, _, _), ofThis, ofTests)) failed = holding scope (tests guarded) (jump scope label ofThis ofTests) failed
    jump scope label ofThis ofTests end = pure (Jump label (map (scope Map.!) ofThis ++ map (end Map.!) ofTests))

-- | The names that are used, and those that the bindings of them use.
neededBy :: [Binding Type] -> Set Name -> Set Name
neededBy bindings used
  | more == used = used
  | otherwise = neededBy bindings more
  where
    more = Set.unions (used : [free (value binding) | binding <- bindings, any (`Set.member` used) (names (target binding))])

-- | The names that a guard's tests use.
freeTests :: Guarded Type -> Set Name
freeTests guarded = Set.unions (map used (tests guarded))
  where
    used (Holds expr) = free expr
    used (Matches _ expr) = free expr

-- | A result as what several places may go on with, by the names of its row and of its tests that it uses; it makes values that it needs alone.
labelledOf :: Env -> [(Name, Type)] -> [Binding Type] -> Guarded Type -> Match (Labelled, [Name], [Name])
labelledOf outer ofRow late guarded = do
  label <- count
  rowVars <- mapM (\name -> fresh name (inRow Map.! name)) ofThis
  testVars <- mapM (\name -> fresh name (inTests Map.! name)) ofTests
  let scope = Map.union (Map.fromList (zip ofThis rowVars)) outer
      again = Map.union (Map.fromList (zip ofTests testVars))
  body <- bound scope needed (\inner -> expression (again inner) (result guarded))
  pure ((label, rowVars ++ testVars, Remark (guardedAt guarded) body), ofThis, ofTests)
  where
    inRow = Map.fromList ofRow
    inTests = Map.fromList (concat [boundTypes pat | Matches pat _ <- tests guarded])
    (fromTests, others) = Set.partition (`Map.member` inTests) (free (result guarded))
    used = neededBy late others
    needed = filter (any (`Set.member` used) . names . target) late
    ofThis = [name | name <- Set.toList used, name `Map.member` inRow]
    ofTests = Set.toList fromTests

mayFail :: Guarded a -> Bool
mayFail guarded = not (all certain (tests guarded))
  where
    certain (Holds expr) | S.Named name _ <- form expr = name `elem` ["otherwise", "True"]
    certain _ = False

-- | Goes on where tests hold, and with what is left where one of them fails.
holding :: Env -> [Test Type] -> (Env -> Match Core) -> Match Core -> Match Core
holding scope several inner failed = case several of
  [] -> inner scope
  Holds expr : others -> do
    test <- expression scope expr
    case test of
      Truth True -> holding scope others inner failed
      _ -> shared failed $ \again -> (\yes no -> choice (at expr) test yes no) <$> holding scope others inner again <*> again
  Matches pat expr : others -> shared failed $ \again -> do
    found <- expression scope expr
    naming (at expr) (nameOf pat) (note expr) found $ \var ->
      match (MatchOf "" (patAt pat) [var]) Map.empty . map normal $
        [ Candidate (patAt pat) (Set.fromList (names pat)) [(var, pat)] scope True (\more _ -> holding more others inner again),
          Candidate (patAt pat) Set.empty [] scope False (\_ _ -> again)
        ]

-- | Gives what may stand at several places a label, where it is more than a jump.
shared :: Match Core -> (Match Core -> Match Core) -> Match Core
shared inner outer = do
  found <- inner
  case found of
    Jump _ _ -> outer (pure found)
    _ -> do
      label <- count
      Label label [] found <$> outer (pure (Jump label []))

-- | A candidate whose tests are those of constructors and numbers alone.
normal :: Candidate -> Candidate
normal candidate = foldl step candidate {left = []} (left candidate)
  where
    step made (var, pat) = case patForm pat of
      Wild -> made
      Bind name -> bind name made
      As name inner -> step (bind name made) (var, inner)
      Strict inner -> step made (var, inner)
      TypedPat inner _ -> step made (var, inner)
      _ -> made {left = left made ++ [(var, pat)]}
      where
        bind name made' = made' {env = Map.insert name var (env made')}

-- | The constructors that variables are known to be made by.
type Shapes = Map Var (Name, [Var])

-- | Tries candidates in order. What several ways lead to, and what only looks at the values that are matched, stands once.
match :: MatchOf -> Shapes -> [Candidate] -> Match Core
match what@(MatchOf _ _ roots) shapes candidates
  | Map.null shapes || length candidates < 2 || any (`notElem` roots) seen = matched what shapes candidates
  | otherwise = gets (Map.lookup key . leftovers) >>= maybe make (\label -> pure (Jump label []))
  where
    key = [(rowPlace one, [(var, patAt pat) | (var, pat) <- left one], Map.toList (Map.restrictKeys (env one) (own one))) | one <- candidates]
    seen = concat [map fst tested ++ map snd found | (one, (_, _, found)) <- zip candidates key, let tested = left one]
    make = do
      body <- matched what shapes candidates
      label <- count
      modify (\state -> state {leftovers = Map.insert key label (leftovers state), residues = (label, [], body) : residues state})
      pure (Jump label [])

matched :: MatchOf -> Shapes -> [Candidate] -> Match Core
matched what shapes [] = missing what shapes
matched what shapes (first : others)
  | null (left first) =
    -- What comes behind the last guard is looked at only where it can be reached.
    if canFail first
      then finish first (env first) (match what shapes others)
      else finish first (env first) (missing what shapes)
  | otherwise = do
    made <- gets next
    when (made > mostMade) (refuse place "too many cases come of these patterns: look at fewer parts in one function")
    case patForm pat of
      Literal wanted -> do
        yes <- match what shapes (mapMaybe (withNumber var wanted) candidates)
        no <- match what shapes (filter (not . hasNumber var wanted) candidates)
        pure (choice place (Operate place Equal (Ref var) (Number wanted)) yes no)
      Made name _ | name `elem` ["True", "False"] -> do
        yes <- match what (Map.insert var ("True", []) shapes) (mapMaybe (withConstructor var "True" []) candidates)
        no <- match what (Map.insert var ("False", []) shapes) (mapMaybe (withConstructor var "False" []) candidates)
        pure (choice place (Ref var) yes no)
      _ -> Case place var <$> (constructorsOf (kind var) >>= mapM arm)
  where
    candidates = first : others
    (var, pat) = maximumBy (comparing (\(tested, _) -> length (filter (any ((== tested) . fst) . left) others))) (reverse (left first))
    place = patAt pat
    arm (name, kinds) = do
      vars <- fieldVars name kinds [inner | one <- candidates, (tested, found) <- left one, tested == var, Made same inner <- [patForm found], same == name]
      Arm name vars <$> match what (Map.insert var (name, vars) shapes) (mapMaybe (withConstructor var name vars) candidates)

-- | So many variables and labels make a program that is too large whatever it does.
mostMade :: Int
mostMade = 200000

-- | The constructors of a type, with the types of their fields.
constructorsOf :: Type -> Match [(Name, [Type])]
constructorsOf kind' = case kind' of
  TCon name given -> do
    found <- asks ((`dataOf` name) . here)
    pure [(conName made, map (filled (Map.fromList (zip (dataVars one) given))) (fields made)) | Just one <- [found], made <- constructors one]
  _ -> pure []

-- | Variables for a constructor's fields, by what patterns call them here or elsewhere.
fieldVars :: Name -> [Type] -> [[Pat Type]] -> Match [Var]
fieldVars name kinds found = do
  -- What a tuple has is something else each time.
  elsewhere <- asks (if tupleSize name == Nothing then Map.findWithDefault [] name . fieldNames else const [])
  mapM (\(place, kind') -> fresh (chosen place elsewhere kind') kind') (zip [0 ..] kinds)
  where
    chosen place elsewhere kind' = fromMaybe (defaultName kind') (listToMaybe (catMaybes (map (nameOf . (!! place)) found ++ take 1 (drop place elsewhere))))

-- | A candidate where a variable is made by a constructor, if it fits.
withConstructor :: Var -> Name -> [Var] -> Candidate -> Maybe Candidate
withConstructor var name vars candidate = case break ((== var) . fst) (left candidate) of
  (_, []) -> Just candidate
  (before, (_, pat) : after)
    | Made same inner <- patForm pat, same == name -> Just (normal candidate {left = before ++ zip vars inner ++ after})
    | otherwise -> Nothing

withNumber :: Var -> Integer -> Candidate -> Maybe Candidate
withNumber var wanted candidate = case break ((== var) . fst) (left candidate) of
  (_, []) -> Just candidate
  (before, (_, pat) : after)
    | Literal same <- patForm pat, same == wanted -> Just candidate {left = before ++ after}
    | otherwise -> Nothing

hasNumber :: Var -> Integer -> Candidate -> Bool
hasNumber var wanted candidate = or [same == wanted | (tested, pat) <- left candidate, tested == var, Literal same <- [patForm pat]]

-- | Some value fits no pattern.
missing :: MatchOf -> Shapes -> Match a
missing (MatchOf name place vars) shapes = refuse place (whose ++ told ++ ": nothing fails on purpose, so give what it is then")
  where
    whose = if null name then "no alternative for " else "no equation of " ++ name ++ " for "
    told
      | null vars || all (\var -> var `Map.notMember` shapes) vars = "what is left when all tests fail"
      | otherwise = unwords (map (shape True) vars)
    shape inner var = case Map.lookup var shapes of
      Nothing -> "_"
      Just (made, []) -> made
      Just (":", [first, rest]) -> parenthesized inner (shape True first ++ " : " ++ shape True rest)
      Just (made, parts)
        | Just _ <- tupleSize made -> "(" ++ intercalate ", " (map (shape False) parts) ++ ")"
        | otherwise -> parenthesized inner (unwords (made : map (shape True) parts))
    parenthesized inner text = if inner then "(" ++ text ++ ")" else text

-- -- expressions ----------------------------------------------------------------------------------------------------------------

-- | Names a value, where it has no name yet.
naming :: Place -> Maybe Name -> Type -> Core -> (Var -> Match Core) -> Match Core
naming place name kind' found inner = case found of
  Ref var -> inner var
  _ -> do
    var <- fresh (fromMaybe (defaultName kind') name) kind'
    Let place var found <$> inner var

expression :: Env -> Expr Type -> Match Core
expression scope expr = case form expr of
  S.Named name _ | Just var <- Map.lookup name scope -> pure (Ref var)
  S.Named name given -> applied place scope (note expr) name given []
  S.Number found -> pure (Number found)
  S.Apply function arguments | S.Named name given <- form function -> applied place scope (note expr) name given arguments
  S.Apply _ _ -> refuse place "what is called here is no function's name"
  S.If test yes no -> choice place <$> expression scope test <*> expression scope yes <*> expression scope no
  S.Case subject alternatives -> cases place scope subject alternatives
  S.Let bindings body -> bound scope bindings (`expression` body)
  S.Choose choices -> matchRows (MatchOf "" place []) scope [] [Row place [] choices]
  S.Typed inner _ -> expression scope inner
  where
    place = at expr

-- | A function, constructor or operation with its arguments.
applied :: Place -> Env -> Type -> Name -> [Type] -> [Expr Type] -> Match Core
applied place scope kind' name given [whole] | name `elem` ["fst", "snd"] = do
  isLibrary <- asks (Set.member name . borrowed . here)
  if isLibrary then partOf place scope name given whole else calledOrMade place scope kind' name given [whole]
applied place scope kind' name given arguments = calledOrMade place scope kind' name given arguments

-- | The first or the second part of a pair.
partOf :: Place -> Env -> Name -> [Type] -> Expr Type -> Match Core
partOf place scope name given whole = do
  found <- expression scope whole
  naming (at whole) Nothing (note whole) found $ \pair -> do
    parts <- mapM (\part -> fresh (defaultName part) part) given
    pure (Case place pair [Arm (tupleName 2) parts (Ref (if name == "fst" then head parts else last parts))])

calledOrMade :: Place -> Env -> Type -> Name -> [Type] -> [Expr Type] -> Match Core
calledOrMade place scope kind' name given arguments = do
  isDeclared <- asks (Map.member name . declared . here)
  isBorrowed <- asks (Set.member name . borrowed . here)
  when (isBorrowed && name `elem` ["div", "mod", "quotRem", "divMod"] && or [True | S.Number 0 <- map form (drop 1 arguments)]) (refuse place noDivision)
  isMade <- asks (\context -> not (isNothing (knownOf (here context) name)))
  if isDeclared
    then Call place name given . (\found -> if null found then [Number 0] else found) <$> mapM (expression scope) arguments
    else
      if isMade
        then made <$> mapM (expression scope) arguments
        else mapM (expression scope) arguments >>= primitive place kind' name given
  where
    made found = case name of
      "True" -> Truth True
      "False" -> Truth False
      _ -> Make place name given found

noDivision :: String
noDivision = "a division by 0: it has no value"

primitive :: Place -> Type -> Name -> [Type] -> [Core] -> Match Core
primitive place kind' name given found = case (name, found) of
  ("+", [a, b]) -> pure (operate Add a b)
  ("-", [a, b]) -> pure (operate Subtract a b)
  ("*", [a, b]) -> pure (operate Multiply a b)
  ("quot", [a, b]) -> divided Quot a b
  ("rem", [a, b]) -> divided Rem a b
  ("<", [a, b]) -> pure (operate Less a b)
  (">", [a, b]) -> pure (operate Less b a)
  ("<=", [a, b]) -> pure (opposite place (operate Less b a))
  (">=", [a, b]) -> pure (opposite place (operate Less a b))
  ("==", [a, b]) -> equal a b
  ("/=", [a, b]) -> opposite place <$> equal a b
  ("&&", [a, b]) -> pure (conjunction place a b)
  ("||", [a, b]) -> pure (disjunction place a b)
  ("not", [a]) -> pure (opposite place a)
  ("negate", [a]) -> pure (operate Subtract (Number 0) a)
  ("otherwise", []) -> pure (Truth True)
  ("spawn", [a]) -> pure a
  ("sync", []) -> pure (Make place "()" [] [])
  ("par", [a, b]) -> both a b
  (".||.", [a, b]) -> both a b
  (_, [a, b]) | name `elem` ["seq", "pseq"] -> naming place Nothing (head given) a (\var -> pure (Force var b))
  (_, [Ref var, b]) | name == spark -> pure (Spark var b)
  (_, [_, b]) | name == spark -> pure b
  _ -> refuse place ("no counterpart for " ++ name)
  where
    operate = Operate place
    divided _ _ (Number 0) = refuse place noDivision
    divided operation a b = pure (operate operation a b)
    equal a b
      | given == [bool] = naming place Nothing bool b (\var -> pure (choice place a (Ref var) (opposite place (Ref var))))
      | otherwise = pure (operate Equal a b)
    both a b = do
      vars <- mapM (\part -> fresh (defaultName part) part) given
      pure $ case (vars, kind') of
        ([one, other], TCon pair _) -> Par place one a other b (Make place pair given [Ref one, Ref other])
        _ -> a

-- | A case. A tuple that is looked at at once is never made.
cases :: Place -> Env -> Expr Type -> [Row Type] -> Match Core
cases place scope subject alternatives = case form subject of
  S.Apply function parts
    | S.Named name _ <- form function,
      Just size' <- tupleSize name,
      size' > 0,
      Just several <- mapM (columns size') alternatives ->
      namingAll scope parts (map (\column' -> listToMaybe (mapMaybe (nameOf . (!! column') . patterns) several)) [0 .. size' - 1]) $ \vars ->
        matchRows (MatchOf "" place vars) scope vars several
    | S.Named name _ <- form function,
      name `elem` ["par", ".||."],
      [one, other] <- parts,
      [row] <- alternatives,
      [Pat _ _ (Made _ [p, q])] <- patterns row ->
      bothBound place scope (p, one) (q, other) (\inner -> matchRows (MatchOf "" place []) inner [] [row {patterns = []}])
  _ -> do
    found <- expression scope subject
    naming (at subject) (listToMaybe (mapMaybe (nameOf . head . patterns) alternatives)) (note subject) found $ \var ->
      matchRows (MatchOf "" place [var]) scope [var] alternatives
  where
    columns size' row = case patterns row of
      [pat] -> (\inner -> row {patterns = inner}) <$> partsOf size' pat
      _ -> Nothing
    partsOf size' pat = case patForm pat of
      Made _ inner -> Just inner
      Wild -> Just (replicate size' pat)
      Strict inner -> partsOf size' inner
      _ -> Nothing

namingAll :: Env -> [Expr Type] -> [Maybe Name] -> ([Var] -> Match Core) -> Match Core
namingAll scope exprs found inner = go (zip exprs found) []
  where
    go [] vars = inner (reverse vars)
    go ((expr, name) : others) vars = do
      made <- expression scope expr
      naming (at expr) name (note expr) made (\var -> go others (var : vars))

-- -- bindings -------------------------------------------------------------------------------------------------------------------

-- | What values are named, and what stands behind them with these names. Values that Gibbon spawns are worked on beside what comes next.
bound :: Env -> [Binding Type] -> (Env -> Match Core) -> Match Core
bound scope bindings inner = case bindings of
  [] -> inner scope
  binding : others
    | isDropped binding -> bound scope others inner
    | Just (p, one, q, other) <- pairBound binding -> bothBound (at (value binding)) scope (p, one) (q, other) (\more -> bound more others inner)
    | Just parts <- apart binding -> bound scope (parts ++ others) inner
    | Just _ <- spawned binding, (several, rest) <- spawnedRun bindings, length several > 1 -> allBound scope several (\more -> bound more rest inner)
    | otherwise -> do
      found <- expression scope (value binding)
      let pat = target binding
      case (patForm pat, found) of
        -- Another name for what has one.
        (Bind name, Ref var) -> bound (Map.insert name var scope) others inner
        _ -> do
          var <- fresh (fromMaybe (defaultName (patNote pat)) (nameOf pat)) (patNote pat)
          Let (at (value binding)) var found . forced pat var <$> opened scope pat var (\more -> bound more others inner)

-- | What nothing looks at in Haskell: a value without a name.
isDropped :: Binding Type -> Bool
isDropped binding = case patForm (target binding) of
  Wild -> True
  Made "()" [] -> True
  _ -> False

forced :: Pat a -> Var -> Core -> Core
forced pat var body = case patForm pat of
  Strict _ -> Force var body
  _ -> body

-- | What stands behind a pattern that always fits.
opened :: Env -> Pat Type -> Var -> (Env -> Match Core) -> Match Core
opened scope pat var inner = match (MatchOf "" (patAt pat) [var]) Map.empty [normal candidate]
  where
    candidate = Candidate (patAt pat) (Set.fromList (names pat)) [(var, pat)] scope False (\more _ -> inner more)

-- | Values that are bound by a constructor which is written, one by one.
apart :: Binding Type -> Maybe [Binding Type]
apart binding = case (patForm (target binding), form (value binding)) of
  (Made name pats, S.Apply function parts) | S.Named same _ <- form function, same == name -> Just (zipWith Binding pats parts)
  _ -> Nothing

-- | Both sides of Gibbon's @par@, with what takes them.
pairBound :: Binding Type -> Maybe (Pat Type, Expr Type, Pat Type, Expr Type)
pairBound binding = case (patForm (target binding), form (value binding)) of
  (Made _ [p, q], S.Apply function [one, other]) | S.Named name _ <- form function, name `elem` ["par", ".||."] -> Just (p, one, q, other)
  _ -> Nothing

bothBound :: Place -> Env -> (Pat Type, Expr Type) -> (Pat Type, Expr Type) -> (Env -> Match Core) -> Match Core
bothBound place scope (p, one) (q, other) inner = do
  first <- fresh (fromMaybe (defaultName (patNote p)) (nameOf p)) (patNote p)
  second <- fresh (fromMaybe (defaultName (patNote q)) (nameOf q)) (patNote q)
  leftSide <- expression scope one
  rightSide <- expression scope other
  Par place first leftSide second rightSide <$> opened scope p first (\more -> opened more q second inner)

spawned :: Binding Type -> Maybe (Expr Type)
spawned binding = case form (value binding) of
  S.Apply function [inner] | S.Named "spawn" _ <- form function -> Just inner
  _ -> Nothing

-- | Bindings that are spawned, and the one behind them, as far as none uses another one; and the others.
spawnedRun :: [Binding Type] -> ([Binding Type], [Binding Type])
spawnedRun = go []
  where
    go done (binding : others)
      | isDropped binding = (reverse done, others)
      | any (\before -> any (`Set.member` free (value binding)) (names (target before))) done = (reverse done, binding : others)
      | Just inner <- spawned binding = go (binding {value = inner} : done) others
      | otherwise = (reverse (binding : done), others)
    go done [] = (reverse done, [])

-- | Several values that are worked on at the same time.
allBound :: Env -> [Binding Type] -> (Env -> Match Core) -> Match Core
allBound scope several inner = case several of
  [one, other] -> bothBound (at (value one)) scope (target one, value one) (target other, value other) inner
  one : others -> do
    let pats = map target others
        kinds = map patNote pats
        whole = tuple kinds
        name = tupleName (length others)
    first <- fresh (fromMaybe (defaultName (patNote (target one))) (nameOf (target one))) (patNote (target one))
    second <- fresh "parts" whole
    leftSide <- expression scope (value one)
    rightSide <- allBound scope others $ \more -> do
      vars <- mapM (\pat -> maybe (fresh "n" (patNote pat)) (\found -> pure (more Map.! found)) (nameOf pat)) pats
      pure (Make (at (value one)) name kinds (map Ref vars))
    let pat = Pat (at (value one)) whole (Made name pats)
    Par (at (value one)) first leftSide second rightSide
      <$> opened scope (target one) first (\more -> opened more pat second inner)
  [] -> inner scope
