{-# LANGUAGE DeriveFoldable #-}
{-# LANGUAGE DeriveFunctor #-}
{-# LANGUAGE DeriveTraversable #-}

-- | The subset of Haskell that has a counterpart. A tree has a note of type @a@ at each expression and pattern: nothing at first, then its type.
module Syntax
  ( Name,
    Type (..),
    Expr (..),
    Form (..),
    Row (..),
    Rhs (..),
    Guarded (..),
    Test (..),
    Binding (..),
    Pat (..),
    PatForm (..),
    Data (..),
    Constructor (..),
    Signature (..),
    Function (..),
    Program (..),
    int,
    bool,
    list,
    tuple,
    tupleName,
    tupleSize,
    names,
    free,
    freeRow,
  )
where

import Data.Set (Set)
import qualified Data.Set as Set
import Fault (Place)

type Name = String

-- | A type. A list's name is @[]@, and that of tuples @(,)@, @(,,)@ and so on.
data Type
  = TCon Name [Type]
  | TVar Name
  | -- | A type that is not known yet.
    TMeta Int
  deriving (Eq, Ord, Show)

int, bool :: Type
int = TCon "Int" []
bool = TCon "Bool" []

list :: Type -> Type
list element = TCon "[]" [element]

tuple :: [Type] -> Type
tuple parts = TCon (tupleName (length parts)) parts

-- | The name of the type of tuples with so many parts, and of its constructor.
tupleName :: Int -> Name
tupleName 0 = "()"
tupleName size = "(" ++ replicate (size - 1) ',' ++ ")"

-- | How many parts the tuples of a name have.
tupleSize :: Name -> Maybe Int
tupleSize "()" = Just 0
tupleSize ('(' : commas@(',' : _)) = Just (length commas)
tupleSize _ = Nothing

data Expr a = Expr {at :: Place, note :: a, form :: Form a}
  deriving (Functor, Foldable, Traversable)

data Form a
  = -- | A variable, a function or a constructor, with what stands for its type variables.
    Named Name [a]
  | Number Integer
  | Apply (Expr a) [Expr a]
  | If (Expr a) (Expr a) (Expr a)
  | Case (Expr a) [Row a]
  | Let [Binding a] (Expr a)
  | -- | The first of several results whose tests hold.
    Choose (Rhs a)
  | Typed (Expr a) Type
  deriving (Functor, Foldable, Traversable)

-- | An equation, or an alternative of a case: patterns and what stands behind them.
data Row a = Row {rowAt :: Place, patterns :: [Pat a], rhs :: Rhs a}
  deriving (Functor, Foldable, Traversable)

data Rhs a = Rhs [Guarded a] [Binding a]
  deriving (Functor, Foldable, Traversable)

data Guarded a = Guarded {guardedAt :: Place, tests :: [Test a], result :: Expr a}
  deriving (Functor, Foldable, Traversable)

data Test a = Holds (Expr a) | Matches (Pat a) (Expr a)
  deriving (Functor, Foldable, Traversable)

data Binding a = Binding {target :: Pat a, value :: Expr a}
  deriving (Functor, Foldable, Traversable)

data Pat a = Pat {patAt :: Place, patNote :: a, patForm :: PatForm a}
  deriving (Functor, Foldable, Traversable)

data PatForm a
  = Wild
  | Bind Name
  | As Name (Pat a)
  | Literal Integer
  | Made Name [Pat a]
  | TypedPat (Pat a) Type
  | -- | Looked at where it is bound, with a @!@.
    Strict (Pat a)
  deriving (Functor, Foldable, Traversable)

data Data = Data {dataAt :: Place, dataName :: Name, dataVars :: [Name], constructors :: [Constructor]}

data Constructor = Constructor {conAt :: Place, conName :: Name, fields :: [Type]}

data Signature = Signature {sigVars :: [Name], parameters :: [Type], sigResult :: Type}

data Function a = Function {funAt :: Place, funName :: Name, signature :: Signature, rows :: [Row a]}
  deriving (Functor)

data Program a = Program {datas :: [Data], functions :: [Function a]}

-- | The names that a pattern binds, from left to right.
names :: Pat a -> [Name]
names pat = case patForm pat of
  Wild -> []
  Bind name -> [name]
  As name inner -> name : names inner
  Literal _ -> []
  Made _ inner -> concatMap names inner
  TypedPat inner _ -> names inner
  Strict inner -> names inner

-- | The names that an expression uses and does not bind itself.
free :: Expr a -> Set Name
free expr = case form expr of
  Named name _ -> Set.singleton name
  Number _ -> Set.empty
  Apply function arguments -> Set.unions (map free (function : arguments))
  If test yes no -> Set.unions (map free [test, yes, no])
  Case subject alternatives -> Set.union (free subject) (Set.unions (map freeRow alternatives))
  Let bindings body -> freeBindings bindings (free body)
  Choose choices -> freeRhs choices
  Typed inner _ -> free inner

freeRow :: Row a -> Set Name
freeRow row = freeRhs (rhs row) `without` concatMap names (patterns row)

freeRhs :: Rhs a -> Set Name
freeRhs (Rhs choices bindings) = freeBindings bindings (Set.unions (map freeGuarded choices))

freeBindings :: [Binding a] -> Set Name -> Set Name
freeBindings bindings body = Set.unions (body : map (free . value) bindings) `without` concatMap (names . target) bindings

freeGuarded :: Guarded a -> Set Name
freeGuarded guarded = foldr test (free (result guarded)) (tests guarded)
  where
    test (Holds expr) inner = Set.union (free expr) inner
    test (Matches pat expr) inner = Set.union (free expr) (inner `without` names pat)

without :: Set Name -> [Name] -> Set Name
without set gone = set `Set.difference` Set.fromList gone
