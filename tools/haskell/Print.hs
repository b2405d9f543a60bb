-- | The text of a program of Gib, and the places of its bytes in the Haskell source.
module Print (Origin (..), printed) where

import Control.Monad.State (State, evalState, gets, modify)
import Data.List (mapAccumL)
import Data.Map (Map)
import qualified Data.Map as Map
import Fault (Place (..), nowhere)
import Gib
import Text.PrettyPrint.Annotated.HughesPJ hiding ((<>))
import qualified Text.PrettyPrint.Annotated.HughesPJ as P

-- | A part of the text, by its first byte and its length, and the place in the source that it comes from.
data Origin = Origin {start :: Int, extent :: Int, origin :: Place}

type Layout = Doc Place

-- | What comments are still to be printed: each is once, where what it stands at comes first.
type Printer = State (Map Place [String])

-- | The text, by declarations, and where its parts come from.
-- | The comments at the head of a module come first.
printed :: Map Place [String] -> Place -> Program -> (String, [Origin])
printed remarks headPlace program = (concat texts, concat origins)
  where
    layouts = evalState declarations remarks
    (_, (texts, origins)) = unzip <$> mapAccumL next 0 layouts
    next at' layout = (at' + length text', (text', [part {start = start part + at' + length gap} | part <- found]))
      where
        -- An empty line stands between two.
        gap = if at' == 0 then "" else "\n"
        (shown, found) = rendered layout
        text' = gap ++ shown ++ "\n"
    declarations = do
      heading <- commentOf headPlace
      types <- mapM dataOf (datas program)
      bodies <- mapM functionOf (functions program)
      end <- commentOf (Place maxBound 1)
      pure (filter (not . isEmpty) ([heading] ++ types ++ bodies ++ [end]))

-- | A layout's text and its parts.
rendered :: Layout -> (String, [Origin])
rendered layout = (concatMap textOf pieces, origins 0 [] pieces)
  where
    pieces = fullRenderAnn PageMode 116 1.1 (:) [] layout
    textOf (NoAnnot (Chr letter) _) = [letter]
    textOf (NoAnnot (Str found) _) = found
    textOf (NoAnnot (PStr found) _) = found
    textOf _ = ""
    origins at' begun (piece : others) = case piece of
      AnnotStart -> origins at' (at' : begun) others
      AnnotEnd place | begin : outer <- begun -> Origin begin (at' - begin) place : origins at' outer others
      _ -> origins (at' + length (textOf piece)) begun others
    origins _ _ [] = []

-- | A part that comes from a place.
from :: Place -> Layout -> Layout
from place layout = if place == nowhere then layout else annotate place layout

-- | The comments of a place, which are then printed.
commentOf :: Place -> Printer Layout
commentOf place = do
  found <- gets (Map.findWithDefault [] place)
  modify (Map.delete place)
  pure (vcat (map comment found))
  where
    comment line' = text ("--" ++ (if take 1 line' `elem` ["", " ", "-"] then "" else " ") ++ line')

-- -- declarations ---------------------------------------------------------------------------------------------------------------

dataOf :: Data -> Printer Layout
dataOf one = do
  heading <- commentOf (dataAt one)
  made' <- mapM alternative (alternatives one)
  let name = text (unwords ("data" : dataName one : variables one))
      (_, only) = head made'
      several = zipWith (\sign' (remark, layout) -> remark $+$ (text sign' <+> layout)) ("=" : repeat "|") made'
  pure . (heading $+$) . from (dataAt one) $
    if length made' == 1 && isEmpty (fst (head made'))
      then name <+> text "=" <+> only <+> text ";"
      else sep [name, nest 2 (sep several) <+> text ";"]
  where
    alternative found = do
      remark <- commentOf (alternativeAt found)
      pure (remark, from (alternativeAt found) (text (made found) <+> hsep (map kind (fields found))))

kind :: Kind -> Layout
kind (Kind name []) = text name
kind (Kind name given) = parens (text name <+> hsep (map kind given))

kindsIn :: [Kind] -> Layout
kindsIn [] = empty
kindsIn given = brackets (hsep (map kind given))

functionOf :: Function -> Printer Layout
functionOf function = do
  heading <- commentOf (functionAt function)
  inner <- expr (body function)
  let isMain = functionName function == "main"
      name = text (if isMain then "main" else "fun " ++ functionName function)
      types = if null (typeVariables function) then empty else brackets (hsep (map text (typeVariables function)))
      given = [parens (text var <+> text ":" <+> kind found) | (var, found) <- parameters function]
      result' = case results function of
        [one] -> kind one
        several -> parens (hsep (punctuate comma (map kind several)))
      declared = hang (name <+> types) 4 (fsep (given ++ [text ":" <+> result' <+> text "="]))
  pure (heading $+$ from (functionAt function) (sep [declared, nest 2 (inner <+> text ";")]))

-- -- expressions ----------------------------------------------------------------------------------------------------------------

-- | An expression where any may stand.
expr :: Expr -> Printer Layout
expr found = case form found of
  Remark inner -> ($+$) <$> commentOf (at found) <*> expr inner
  _ -> from (at found) <$> case form found of
    Call name kinds arguments -> applied name kinds arguments
    Make name kinds arguments -> applied name kinds arguments
    Parts parts -> parens . sep . punctuate comma <$> mapM expr parts
    If test yes no -> sep <$> choices "if" test yes no
    Case name arms -> do
      several <- mapM arm arms
      pure (sep ([text "case" <+> text name <+> text "of {"] ++ map (nest 2) (punctuate (text " ;") several) ++ [text "}"]))
    Let names value rest -> (\named inner -> sep [named <+> text "in", inner]) <$> binding "let " names value <*> expr rest
    Par one left other right rest -> do
      leftSide <- binding "let par " one left
      rightSide <- binding "and " other right
      inner <- expr rest
      pure (sep [sep [leftSide, nest 4 (rightSide <+> text "in")], inner])
    _ -> simple found
  where
    choices word test yes no = do
      asked <- expr test
      chosen <- expr yes
      others <- case form no of
        If test' yes' no' -> choices "else if" test' yes' no'
        _ -> (\other -> [hang (text "else") 2 other]) <$> expr no
      pure (hang (text word <+> asked <+> text "then") 2 chosen : others)
    arm (name, names, inner) = hang (hsep (map text (name : names)) <+> text "->") 2 <$> expr inner
    binding word names value = hang (text word P.<> bound names <+> text "=") 2 <$> expr value
    bound [name] = text name
    bound names = parens (hsep (punctuate comma (map text names)))

applied :: String -> [Kind] -> [Expr] -> Printer Layout
applied name kinds arguments = do
  inner <- mapM atom arguments
  pure (if null inner then headed else hang headed 2 (sep inner))
  where
    headed = text name <+> kindsIn kinds

-- | What stands without parentheses anywhere.
simple :: Expr -> Printer Layout
simple found = case form found of
  Variable name -> pure (text name)
  Number number -> pure (text (show number))
  Truth truth -> pure (text (show truth))
  Operate operation left right -> (\one other -> parens (sep [one <+> text (sign operation), other])) <$> side left <*> side right
  _ -> parens <$> expr found

-- | An argument.
atom :: Expr -> Printer Layout
atom found = from (at found) <$> case form found of
  Make name kinds [] -> applied name kinds []
  _ -> simple found

-- | A side of an operation.
side :: Expr -> Printer Layout
side found = from (at found) <$> case form found of
  Call name kinds arguments -> applied name kinds arguments
  Make name kinds arguments -> applied name kinds arguments
  _ -> simple found
