-- | Translates a program in a subset of Haskell to Gib. The script `gib` calls it with these words:
--
-- > translate FOLDER FILE OUT PLACES   writes the program to OUT, and to PLACES which place of FILE each part of it comes from
-- > write FOLDER FILE OUT PLACES       does so without asking GHC whether it takes FILE too
-- > fault FOLDER FILE DEPTH            prints where a run stops, with so many calls open at a time, on the text of a value on standard input
--
-- FOLDER has the library. Faults of FILE are one line each on standard error, with the place, and the status is 1.
module Main (main) where

import Control.Exception (IOException, try)
import Control.Monad (unless, when)
import Data.List (mapAccumL)
import qualified Data.Map as Map
import Data.Maybe (listToMaybe)
import qualified Data.Set as Set
import Fault
import Front
import Ghc
import qualified Gib
import Infer
import Lower
import Match
import Print
import Run
import Syntax
import System.Environment (getArgs)
import System.Exit (ExitCode (..), exitWith)
import System.FilePath ((</>))
import System.IO
import Tidy
import World

main :: IO ()
main = do
  mkTextEncoding "UTF-8//ROUNDTRIP" >>= hSetEncoding stderr
  given <- getArgs
  case given of
    [word, folder, file, out, places] | word `elem` ["translate", "write"] -> do
      (written, source, made') <- translated folder file
      let (text, origins) = printed (remarks source) (headAt source) made'
      unless (length (take (longest + 1) text) <= longest) . stop file . Fault (lastPlaceWithin origins) $
        "the program has more than " ++ show longest ++ " bytes up to here: make two of it"
      when (word == "translate") (askGhc (folder </> "prelude") written source >>= mapM_ (stop file))
      writeOut out text
      writeOut places (unlines [unwords (map show [start part, extent part, line (origin part), column (origin part)]) | part <- origins])
    ["fault", folder, file, depth] -> do
      (_, _, made') <- translated folder file
      input <- getContents
      case readValue input >>= stopOf made' (read depth) of
        Just (Depth place) -> putStrLn ("depth " ++ shown place)
        Just (Division place) -> putStrLn ("division " ++ shown place)
        Nothing -> pure ()
    _ -> hPutStrLn stderr "usage: from-haskell translate|write FOLDER FILE OUT PLACES | fault FOLDER FILE DEPTH" >> exitWith (ExitFailure 2)
  where
    longest = 1048576
    shown place = show (line place) ++ ":" ++ show (column place)
    lastPlaceWithin origins = foldl (\_ part -> origin part) nowhere (takeWhile ((< 1048576) . start) origins)

-- | Ends with a fault of a file.
stop :: FilePath -> Fault -> IO a
stop file (Fault place message) = do
  hPutStrLn stderr ("gib: " ++ file ++ ":" ++ show (max 1 (line place)) ++ ":" ++ show (max 1 (column place)) ++ ": " ++ message)
  exitWith (ExitFailure 1)

-- | Reads a file. A byte that is no UTF-8 is a letter that no name has.
readText :: FilePath -> IO String
readText file = do
  loose <- mkTextEncoding "UTF-8//ROUNDTRIP"
  let contents handle = hSetEncoding handle loose >> hGetContents handle >>= \text -> length text `seq` pure text
  found <- try (withFile file ReadMode contents) :: IO (Either IOException String)
  either (const (hPutStrLn stderr ("gib: cannot read " ++ file) >> exitWith (ExitFailure 6))) (pure . unmarked) found
  where
    -- GHC reads a mark of the order of bytes over, too.
    unmarked text = if take 1 text == "\xFEFF" then drop 1 text else text

writeOut :: FilePath -> String -> IO ()
writeOut file text = do
  done <- try (withFile file WriteMode (\handle -> hSetEncoding handle char8 >> hPutStr handle text)) :: IO (Either IOException ())
  either (const (hPutStrLn stderr ("gib: cannot write " ++ file) >> exitWith (ExitFailure 7))) pure done

-- | A file's text, its source and its program.
translated :: FilePath -> FilePath -> IO (String, Source, Gib.Program)
translated folder file = do
  text <- readText file
  library <- readText (folder </> "library.hs")
  either (stop file) pure $ do
    own <- readLibrary "library.hs" library
    source <- readSource file text
    (,,) text source <$> translate own (program source)

-- | The whole way from what is written to a program of Gib.
translate :: Program () -> Program () -> Either Fault Gib.Program
translate library written = do
  entry <- entryOf written
  mapM_ Left (ofThemselves (functions written))
  mapM_ Left (tooManyFunctions [funAt function | function <- functions written, funName function /= entry])
  let whole = withLibrary library written
      here = world written whole
  checkDatas here (datas written)
  typed <- infer here whole
  found <- definitions here typed
  let (known', tidied) = mapAccumL tidy here found
  made' <- lower known' (map dataName (datas written)) entry (concat tidied)
  made' <$ mapM_ Left (Gib.tooDeep made')

-- | The function that takes the program's input.
entryOf :: Program a -> Either Fault Name
entryOf written = case filter (`elem` map funName (functions written)) ["gibbon_main", "main"] of
  name : _ -> Right name
  [] -> refuse nowhere "no gibbon_main and no main: one of them takes the program's input as its one parameter, and gives its result"

-- | The fault of values on the top level that are made of themselves, as a list without an end.
ofThemselves :: [Function ()] -> Maybe Fault
ofThemselves found = listToMaybe [Fault (funAt one) (funName one ++ madeOfItself) | one <- alone, funName one `Set.member` reached (uses' one)]
  where
    madeOfItself = " is a value that is made of itself, which has no end: write a function that makes as much as is asked for"
    alone = [function | function <- found, null (parameters (signature function))]
    byName = Map.fromList [(funName function, uses' function) | function <- alone]
    uses' = Set.unions . map freeRow . rows
    reached names'
      | more == names' = names'
      | otherwise = reached more
      where
        more = Set.unions (names' : [Map.findWithDefault Set.empty name byName | name <- Set.toList names'])

-- | A program with what it uses of the library and does not declare.
withLibrary :: Program () -> Program () -> Program ()
withLibrary library written =
  Program (datas written ++ filter isMissingType (datas library)) (functions written ++ filter ((`Set.member` reached) . funName) missing)
  where
    declaredHere = Set.fromList (map funName (functions written))
    isMissingType one = dataName one `notElem` map dataName (datas written) && all ((`notElem` ownConstructors) . conName) (constructors one)
    ownConstructors = [conName made' | other <- datas written, made' <- constructors other]
    missing = filter ((`Set.notMember` declaredHere) . funName) (functions library)
    usesOf function = Set.unions (map freeRow (rows function))
    reached = close (Set.unions (map usesOf (functions written)))
    close names'
      | more == names' = names'
      | otherwise = close more
      where
        more = Set.unions (names' : [usesOf function | function <- missing, funName function `Set.member` names'])
