{-# LANGUAGE FlexibleContexts #-}

-- | From a file's text to the subset of "Syntax", by haskell-src-exts. What has no counterpart is refused here, with what would do.
module Front (Source (..), Remarks, readSource, readLibrary) where

import Control.Monad (foldM, unless, when)
import Control.Monad.Except (throwError)
import Control.Monad.Reader (local, runReaderT)
import Control.Monad.State (runStateT)
import Data.Char (isSpace)
import Data.List (dropWhileEnd, sortOn)
import Data.Map (Map)
import qualified Data.Map as Map
import Data.Maybe (catMaybes, isNothing, listToMaybe)
import Expressions
import Fault
import qualified Language.Haskell.Exts as H
import Reading
import Syntax
import World (counted)

-- | What comments stand at a declaration, an equation, an alternative, a guard, a binding or a constructor, by its place.
type Remarks = Map Place [String]

-- | A source: its declarations, its comments, and what GHC has to know to look at it too.
data Source = Source
  { program :: Program (),
    remarks :: Remarks,
    -- | Where its module begins.
    headAt :: Place,
    -- | The name of its module, and where that stands; none without a head.
    moduleName :: Maybe (Place, String),
    flags :: [String]
  }

-- | Reads a source. Places in it are the file's own.
readSource :: FilePath -> String -> Either Fault Source
readSource path text = do
  maybe (Right ()) throwError (badLetter text)
  (parsed, comments) <- parsedText path (filter (/= '\r') text)
  (found, end) <- runReaderT (runStateT (readModule parsed) begun) (Around 0 Map.empty False False)
  pure found {remarks = remarksAt (lines text) (kept end) comments}

-- | Reads the library, whose places are those of no source.
readLibrary :: FilePath -> String -> Either Fault (Program ())
readLibrary path text = do
  (parsed, _) <- parsedText path text
  (found, _) <- runReaderT (runStateT (readModule (nothing <$ parsed)) begun) (Around 0 Map.empty False True)
  pure (program found)
  where
    nothing = H.noSrcSpan

parsedText :: FilePath -> String -> Either Fault (H.Module Info, [H.Comment])
parsedText path text = case H.parseFileContentsWithComments mode text of
  H.ParseFailed place message -> refuse (Place (H.srcLine place) (H.srcColumn place)) (faultAt place (oneLine message))
  H.ParseOk found -> Right found
  where
    mode =
      H.defaultParseMode
        { H.parseFilename = path,
          H.extensions = map H.EnableExtension [H.BangPatterns, H.ScopedTypeVariables],
          H.ignoreLinePragmas = True,
          H.fixities = Just (H.infixl_ 9 [".||."] ++ H.infixr_ 0 ["`par`", "`pseq`"] ++ H.preludeFixities)
        }
    -- Bytes that are no UTF-8 are read as half letters.
    faultAt place message
      | letter : _ <- drop (H.srcColumn place - 1) (concat (take 1 (drop (H.srcLine place - 1) (lines text)))), isHalf letter = "a byte that is no UTF-8"
      | otherwise = message
    isHalf letter = letter >= '\xDC80' && letter <= '\xDCFF'

-- | A source is ASCII but for its comments and texts, which need not be: this finds a byte that no Haskell source has.
badLetter :: String -> Maybe Fault
badLetter text = (\place -> Fault place "a control byte: a source is text") <$> listToMaybe found
  where
    found = [Place row here | (row, content) <- numbered (lines text), (here, letter) <- numbered content, isControl letter]
    isControl letter = letter < ' ' && not (isSpace letter) || letter == '\DEL'

numbered :: [a] -> [(Int, a)]
numbered = zip [1 ..]

oneLine :: String -> String
oneLine = unwords . words

-- -- comments -------------------------------------------------------------------------------------------------------------------

-- | Gives each comment in a text of these lines to a place: one behind code to what began last, one on its own line to what begins next.
remarksAt :: [String] -> [Place] -> [H.Comment] -> Remarks
remarksAt written anchors comments = Map.fromListWith (++) (map give (reverse (sortOn start comments)))
  where
    places = Map.fromList [(place, ()) | place <- anchors]
    linesHere = Map.fromList (numbered written)
    -- A sign alone begins what stands behind the comment.
    isBehindCode place = any (`notElem` " \t|=") (take (column place - 1) (Map.findWithDefault "" (line place) linesHere))
    start (H.Comment _ span' _) = Place (H.srcSpanStartLine span') (H.srcSpanStartColumn span')
    give comment@(H.Comment _ _ text) = (anchor (start comment), remarkLines text)
    anchor place = case (Map.lookupLT place places, Map.lookupGT place places) of
      (Just (before, ()), _) | isBehindCode place -> before
      (_, Just (after, ())) -> after
      (_, Nothing) -> Place maxBound 1

-- | The lines of a comment as a source of Gib may have them.
remarkLines :: String -> [String]
remarkLines = map (map plain . dropWhileEnd isSpace) . trim . lines
  where
    trim = dropWhileEnd (all isSpace) . dropWhile (all isSpace)
    plain letter
      | letter >= ' ' && letter <= '~' = letter
      | otherwise = '?'

-- -- declarations ----------------------------------------------------------------------------------------------------------------

readModule :: H.Module Info -> Front Source
readModule (H.Module _ heading pragmas imports declarations) = do
  mapM_ checkImport imports
  begin <- maybe (pure nowhere) (anchored . placeOf) heading
  known <- foldM addSynonym Map.empty (synonymsFirst declarations)
  local (\around -> around {synonyms = known, sparks = any (isSparking . H.importModule) imports}) $ do
    made <- catMaybes <$> mapM (inOneDeclaration . readData) declarations
    signatures <- concat <$> mapM (inOneDeclaration . readSignature) declarations
    checkTwice [(name, place) | (name, (place, _)) <- signatures]
    equations <- concat <$> mapM (inOneDeclaration . readEquations) declarations
    found <- mapM (readFunction (Map.fromList signatures)) (grouped equations)
    checkTwice [(funName function, placeOfFirst function) | function <- found]
    unwritten signatures found
    pure
      Source
        { program = Program made found,
          remarks = Map.empty,
          headAt = begin,
          moduleName = nameOf <$> heading,
          flags = concatMap flagsOf pragmas
        }
  where
    nameOf (H.ModuleHead _ name@(H.ModuleName _ text) _ _) = (placeOf name, text)
    isSparking (H.ModuleName _ name) = name `elem` ["Control.Parallel", "GHC.Conc"]
    flagsOf (H.LanguagePragma _ extensions) = ["-X" ++ text | H.Ident _ text <- extensions]
    flagsOf _ = []
    placeOfFirst function = maybe (funAt function) rowAt (listToMaybe (rows function))
readModule other = refuse (placeOf other) "a page of XML: a module has declarations alone"

-- | Signatures have equations.
unwritten :: [(Name, (Place, a))] -> [Function ()] -> Front ()
unwritten signatures found =
  mapM_ (\(name, (place, _)) -> refuse place (name ++ " has no equations: write one")) (take 1 missing)
  where
    written = Map.fromList [(funName function, ()) | function <- found]
    missing = [signed | signed@(name, _) <- signatures, name `Map.notMember` written]

-- | Modules that the translator brings with it.
checkImport :: H.ImportDecl Info -> Front ()
checkImport declaration
  | H.importQualified declaration = refuse place "a qualified import: names stand without a module, in one file"
  | name `elem` ["Prelude", "Gibbon.Prelude", "Gibbon", "Control.Parallel", "GHC.Conc"] = pure ()
  | otherwise = refuse place ("no module " ++ name ++ ": a program is one file, and may import Prelude, Gibbon.Prelude, Control.Parallel or GHC.Conc")
  where
    place = placeOf declaration
    H.ModuleName _ name = H.importModule declaration

synonymsFirst :: [H.Decl Info] -> [(Place, Name, [Name], H.Type Info)]
synonymsFirst declarations = ordered [(placeOf heading, name, vars, body) | H.TypeDecl _ heading body <- declarations, Right (name, vars) <- [headOf heading]]
  where
    -- A synonym may use one that stands behind it; one that uses itself is found as an unknown type.
    ordered found = case [one | one@(_, _, _, body) <- found, not (any (`elem` [name | (_, name, _, _) <- found]) (namesIn body))] of
      [] -> found
      ready -> ready ++ ordered [one | one@(_, name, _, _) <- found, name `notElem` [done | (_, done, _, _) <- ready]]
    namesIn body = case body of
      H.TyCon _ (H.UnQual _ name) -> [textOf name]
      H.TyApp _ function argument -> namesIn function ++ namesIn argument
      H.TyFun _ from to -> namesIn from ++ namesIn to
      H.TyTuple _ _ parts -> concatMap namesIn parts
      H.TyList _ element -> namesIn element
      H.TyParen _ inner -> namesIn inner
      _ -> []

addSynonym :: Synonyms -> (Place, Name, [Name], H.Type Info) -> Front Synonyms
addSynonym known (_, name, vars, body) = do
  meaning <- local (\around -> around {synonyms = known}) (readType body)
  pure (Map.insert name (vars, meaning) known)

readData :: H.Decl Info -> Front (Maybe Data)
readData declaration = case declaration of
  H.DataDecl _ _ context heading made _ -> do
    when (not (null made) && not (isNothing context)) (refuse place noClasses)
    when (null made) (refuse place "a type without constructors has no values: give it one")
    (name, vars) <- either throwError pure (headOf heading)
    at' <- anchored place
    Just . Data at' name vars <$> mapM readConstructor made
  H.GDataDecl {} -> refuse place "a type by signatures of its constructors: write data T = A Int | B"
  _ -> pure Nothing
  where
    place = placeOf declaration

readConstructor :: H.QualConDecl Info -> Front Constructor
readConstructor (H.QualConDecl info forall' context made) = do
  unless (isNothing forall' && isNothing context) (refuse place "a constructor with variables of its own: declare them at the type")
  case made of
    H.ConDecl _ name kinds -> Constructor <$> anchored place <*> named name <*> mapM readType kinds
    H.InfixConDecl {} -> refuse place "a constructor that is an operator: give it a name in front of its fields"
    H.RecDecl {} -> refuse place "a record: write the constructor with its types, and take its fields by a pattern"
  where
    place = placeOf (H.QualConDecl info forall' context made)

readSignature :: H.Decl Info -> Front [(Name, (Place, Signature))]
readSignature declaration@(H.TypeSig _ functionNames kind) = do
  place <- anchored (placeOf declaration)
  known <- readSignatureType kind
  mapM (\name -> (\text -> (text, (place, known))) <$> named name) functionNames
readSignature _ = pure []

readSignatureType :: H.Type Info -> Front Signature
readSignatureType kind = case kind of
  H.TyForall _ _ context inner
    | all noContext context -> readSignatureType inner
    | otherwise -> refuse (placeOf kind) noClasses
  H.TyParen _ inner@H.TyFun {} -> readSignatureType inner
  _ -> do
    types <- mapM readType (arrows kind)
    pure (Signature (variablesOf types) (init types) (last types))
  where
    noContext H.CxEmpty {} = True
    noContext (H.CxTuple _ []) = True
    noContext _ = False

-- -- functions ------------------------------------------------------------------------------------------------------------------

-- | An equation: the function's name and its place, and the row.
type Equation = (Name, Place, Row ())

readEquations :: H.Decl Info -> Front [Equation]
readEquations declaration = case declaration of
  H.FunBind _ matches -> atMost 1000 "equations" matches >> mapM readMatch matches
  H.PatBind _ (H.PVar _ name) choices bindings -> do
    place <- anchored here
    text <- named name
    body <- readRhs place choices bindings
    pure [(text, place, Row place [] body)]
  H.PatBind {} -> refuse here "a pattern on the top level: declare a function for each name"
  H.TypeDecl _ heading _ -> [] <$ either throwError pure (headOf heading)
  H.TypeSig {} -> pure []
  H.DataDecl {} -> pure []
  H.InfixDecl {} -> pure []
  H.InlineSig {} -> pure []
  H.SpecSig {} -> pure []
  H.ClassDecl {} -> refuse here noClasses
  H.InstDecl {} -> refuse here noClasses
  H.DerivDecl {} -> refuse here noClasses
  H.AnnPragma {} -> pure []
  _ -> refuse here "no counterpart for this declaration: a program has data, type, signatures and functions"
  where
    here = placeOf declaration

readMatch :: H.Match Info -> Front Equation
readMatch match = case match of
  H.Match _ name pats choices bindings -> equation name pats choices bindings
  H.InfixMatch _ left name others choices bindings -> equation name (left : others) choices bindings
  where
    equation name pats choices bindings = do
      place <- anchored (placeOf match)
      text <- named name
      row <- Row place <$> mapM readPat pats <*> readRhs place choices bindings
      pure (text, place, row)

grouped :: [Equation] -> [(Name, Place, [Row ()])]
grouped ((name, place, row) : others) = (name, place, row : [next | (_, _, next) <- same]) : grouped rest
  where
    (same, rest) = span (\(other, _, _) -> other == name) others
grouped [] = []

readFunction :: Map Name (Place, Signature) -> (Name, Place, [Row ()]) -> Front (Function ())
readFunction signatures (name, place, equations) = case Map.lookup name signatures of
  Nothing -> refuse place (name ++ " has no signature: write " ++ name ++ " :: .. above it")
  Just (signed, known) -> do
    mapM_ (checkCount known) equations
    pure (Function signed name known equations)
  where
    checkCount known row
      | given == due = pure ()
      | given < due = refuse (rowAt row) ("functions are no values: write " ++ each due ++ " of " ++ name ++ " in front of the =")
      | otherwise = refuse (rowAt row) (name ++ " has " ++ counted due "parameter" ++ " by its signature; here are " ++ show given)
      where
        given = length (patterns row)
        due = length (parameters known)
    each due = if due == 1 then "the parameter" else "all " ++ counted due "parameter"
