-- | What patterns, guards and operations become: cases on variables with an arm for each constructor, and values that are named once.
module Core
  ( Var (..),
    Operation (..),
    Core (..),
    Arm (..),
    Definition (..),
    choice,
    opposite,
    conjunction,
    disjunction,
    uses,
    isUsed,
    isNeeded,
    isSimple,
    renamed,
    size,
    overParts,
    bindersOf,
    unbound,
    typeOf,
  )
where

import Data.Functor.Const (Const (..))
import Data.Functor.Identity (Identity (..))
import Data.Map (Map)
import qualified Data.Map as Map
import Data.Maybe (listToMaybe)
import Data.Monoid (Sum (..))
import Data.Set (Set)
import qualified Data.Set as Set
import Fault (Place)
import Syntax (Name, Signature (..), Type (..), bool, int)
import World (Known (..), World (..), filled, knownOf)

-- | A variable: the name that it would have, its number, by which it is known, and its type.
data Var = Var {hint :: Name, number :: Int, kind :: Type}

instance Eq Var where
  one == other = number one == number other

instance Ord Var where
  compare one other = compare (number one) (number other)

data Operation = Add | Subtract | Multiply | Equal | Less | Quot | Rem
  deriving (Eq)

data Core
  = Ref Var
  | Number Integer
  | Truth Bool
  | Operate Place Operation Core Core
  | Call Place Name [Type] [Core]
  | Make Place Name [Type] [Core]
  | If Place Core Core Core
  | Case Place Var [Arm]
  | Let Place Var Core Core
  | -- | Two values that may be worked on at the same time.
    Par Place Var Core Var Core Core
  | -- | A value that has to be there, used or not.
    Force Var Core
  | -- | A value that another worker may make.
    Spark Var Core
  | -- | What may be gone on with at several places of the second part, by a number, with what it takes.
    Label Int [Var] Core Core
  | Jump Int [Var]
  | -- | Where comments may stand.
    Remark Place Core

data Arm = Arm {constructor :: Name, binders :: [Var], armBody :: Core}

-- | A function of the program.
data Definition = Definition
  { defAt :: Place,
    defName :: Name,
    defVars :: [Name],
    defParameters :: [Var],
    defResult :: Type,
    defBody :: Core
  }

-- | A choice, where the test is known or the opposite of another one without it.
choice :: Place -> Core -> Core -> Core -> Core
choice place test yes no = case test of
  Truth True -> yes
  Truth False -> no
  If _ inner (Truth False) (Truth True) -> choice place inner no yes
  _ -> If place test yes no

opposite :: Place -> Core -> Core
opposite _ (If _ inner (Truth False) (Truth True)) = inner
opposite place test = choice place test (Truth False) (Truth True)

conjunction, disjunction :: Place -> Core -> Core -> Core
conjunction place left right = choice place left right (Truth False)
disjunction place left right = choice place left (Truth True) right

-- | Goes over the parts of an expression.
overParts :: Applicative f => (Core -> f Core) -> Core -> f Core
overParts go core = case core of
  Operate place operation left right -> Operate place operation <$> go left <*> go right
  Call place name given arguments -> Call place name given <$> traverse go arguments
  Make place name given arguments -> Make place name given <$> traverse go arguments
  If place test yes no -> If place <$> go test <*> go yes <*> go no
  Case place var arms -> Case place var <$> traverse (\arm -> (\body -> arm {armBody = body}) <$> go (armBody arm)) arms
  Let place var value body -> Let place var <$> go value <*> go body
  Par place one left other right body -> Par place one <$> go left <*> pure other <*> go right <*> go body
  Force var body -> Force var <$> go body
  Spark var body -> Spark var <$> go body
  Label label vars inner body -> Label label vars <$> go inner <*> go body
  Remark place body -> Remark place <$> go body
  _ -> pure core

-- | The variables that an expression uses. They are bound once each, so those that it binds itself matter to nobody else.
uses :: Core -> Set Var
uses core = Set.union (here core) (getConst (overParts (Const . uses) core))
  where
    here (Ref var) = Set.singleton var
    here (Case _ var _) = Set.singleton var
    here (Force var _) = Set.singleton var
    here (Spark var _) = Set.singleton var
    here (Jump _ vars) = Set.fromList vars
    here _ = Set.empty

isUsed :: Set Var -> Core -> Bool
isUsed vars core = not (Set.null (vars `Set.intersection` uses core))

-- | Whether an expression surely uses some of the variables, whatever way it goes.
isNeeded :: Set Var -> Core -> Bool
isNeeded vars = go Map.empty
  where
    needs var = var `Set.member` vars
    go labels core = case core of
      Ref var -> needs var
      If _ test yes no -> go labels test || go labels yes && go labels no
      Case _ var arms -> needs var || all (go labels . armBody) arms
      Force var body -> needs var || go labels body
      Spark var body -> needs var || go labels body
      Jump label taken -> any needs taken || Map.findWithDefault False label labels
      Label label _ inner body -> go (Map.insert label (go labels inner) labels) body
      _ -> or (getConst (overParts (\part -> Const [go labels part]) core))

-- | The variables that an expression binds.
bindersOf :: Core -> Set Var
bindersOf core = Set.union (Set.fromList here) (getConst (overParts (Const . bindersOf) core))
  where
    here = case core of
      Case _ _ arms -> concatMap binders arms
      Let _ var _ _ -> [var]
      Par _ one _ other _ _ -> [one, other]
      Label _ vars _ _ -> vars
      _ -> []

-- | The variables that an expression uses and does not bind.
unbound :: Core -> Set Var
unbound core = uses core `Set.difference` bindersOf core

-- | Whether nothing can fail in an expression, and it makes nothing: it may stand where it is not used.
isSimple :: Core -> Bool
isSimple core = case core of
  Ref _ -> True
  Number _ -> True
  Truth _ -> True
  Operate _ operation left right -> operation `notElem` [Quot, Rem] && isSimple left && isSimple right
  Make _ _ _ [] -> True
  Remark _ body -> isSimple body
  _ -> False

-- | An expression with other variables in place of some.
renamed :: Map Var Var -> Core -> Core
renamed new core = case core of
  Ref var -> Ref (put var)
  Jump label vars -> Jump label (map put vars)
  Case place var arms -> Case place (put var) [arm {armBody = renamed new (armBody arm)} | arm <- arms]
  Force var body -> Force (put var) (renamed new body)
  Spark var body -> Spark (put var) (renamed new body)
  _ -> runIdentity (overParts (Identity . renamed new) core)
  where
    put var = Map.findWithDefault var var new

-- | How many expressions there are.
size :: Core -> Int
size core = getSum (own + getConst (overParts (Const . Sum . size) core))
  where
    own = case core of
      Remark _ _ -> 0
      Force _ _ -> 0
      Spark _ _ -> 0
      Label {} -> 0
      _ -> 1

-- | The type of what an expression gives; `labels` has those of what may be gone on with.
typeOf :: World -> Map Int Type -> Core -> Type
typeOf here labels core = case core of
  Ref var -> kind var
  Number _ -> int
  Truth _ -> bool
  Operate _ operation _ _ -> if operation `elem` [Equal, Less] then bool else int
  Call _ name given _ -> maybe int (\found -> filled (Map.fromList (zip (sigVars found) given)) (sigResult found)) (Map.lookup name (declared here))
  Make _ name given _ -> maybe int (\found -> TCon (owner found) given) (knownOf here name)
  If _ _ yes _ -> typeOf here labels yes
  Case _ _ arms -> maybe int (typeOf here labels . armBody) (listToMaybe arms)
  Let _ _ _ body -> typeOf here labels body
  Par _ _ _ _ _ body -> typeOf here labels body
  Force _ body -> typeOf here labels body
  Spark _ body -> typeOf here labels body
  Label label _ inner body -> typeOf here (Map.insert label (typeOf here labels inner) labels) body
  Jump label _ -> Map.findWithDefault int label labels
  Remark _ body -> typeOf here labels body
