-- | A program of Gib, with the place of the Haskell source that each expression comes from.
module Gib (Expr (..), Form (..), Kind (..), Data (..), Alternative (..), Function (..), Program (..), Operation (..), sign, tooDeep) where

import Core (Operation (..))
import Data.Maybe (listToMaybe, mapMaybe)
import Fault (Fault (..), Place, nowhere)
import Syntax (Name)

data Expr = Expr {at :: Place, form :: Form}

data Form
  = Variable Name
  | Number Integer
  | Truth Bool
  | Operate Operation Expr Expr
  | Call Name [Kind] [Expr]
  | Make Name [Kind] [Expr]
  | Parts [Expr]
  | If Expr Expr Expr
  | Case Name [(Name, [Name], Expr)]
  | Let [Name] Expr Expr
  | Par [Name] Expr [Name] Expr Expr
  | -- | Where the comments of a place of the source stand.
    Remark Expr

-- | A type: a name and what stands behind it.
data Kind = Kind Name [Kind]
  deriving (Eq)

data Alternative = Alternative {alternativeAt :: Place, made :: Name, fields :: [Kind]}

data Data = Data {dataAt :: Place, dataName :: Name, variables :: [Name], alternatives :: [Alternative]}

-- | A function; of several results there are as many types.
data Function = Function
  { functionAt :: Place,
    functionName :: Name,
    typeVariables :: [Name],
    parameters :: [(Name, Kind)],
    results :: [Kind],
    body :: Expr
  }

-- | The function called @main@ is the last one.
data Program = Program {datas :: [Data], functions :: [Function]}

-- | How an operation is written.
sign :: Operation -> String
sign operation = case operation of
  Add -> "+"
  Subtract -> "-"
  Multiply -> "*"
  Equal -> "=="
  Less -> "<"
  Quot -> "quot"
  Rem -> "rem"

-- | The fault of expressions that stand in one another on more levels than any program of Gib has; it may have fewer, by the parentheses between them.
tooDeep :: Program -> Maybe Fault
tooDeep program = listToMaybe (mapMaybe (\function -> within (functionAt function) deepest (body function)) (functions program))
  where
    deepest = 200 :: Int
    within place 0 _ = Just (Fault place "expressions stand in one another on more than 200 levels here, in the text of Gib: give a part a function of its own")
    within place left expr = listToMaybe (mapMaybe (within (if at expr == nowhere then place else at expr) (left - 1)) (inner (form expr)))
    inner found = case found of
      Operate _ one other -> [one, other]
      Call _ _ arguments -> arguments
      Make _ _ arguments -> arguments
      Parts several -> several
      If test yes no -> [test, yes, no]
      Case _ arms -> [rest | (_, _, rest) <- arms]
      Let _ value rest -> [value, rest]
      Par _ one _ other rest -> [one, other, rest]
      Remark (Expr _ same) -> inner same
      _ -> []
