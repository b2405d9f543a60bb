-- | What GHC says of a source, where there is a @ghc@.
module Ghc (askGhc) where

import Control.Exception (bracket)
import Data.Char (isDigit, isSpace)
import Data.List (isPrefixOf)
import Fault
import Front (Source (..))
import System.Directory (findExecutable, getTemporaryDirectory, removeFile)
import System.Exit (ExitCode (..))
import System.IO
import System.Process (readProcessWithExitCode)

-- | The first fault that GHC finds in a source's text. The folder has the modules that a source may import.
askGhc :: FilePath -> String -> Source -> IO (Maybe Fault)
askGhc prelude text source = findExecutable "ghc" >>= maybe (pure Nothing) ask
  where
    ask ghc = do
      folder <- getTemporaryDirectory
      bracket (openTempFile folder "source.hs") (removeFile . fst) $ \(file, handle) -> do
        -- As the file was read.
        mkTextEncoding "UTF-8//ROUNDTRIP" >>= hSetEncoding handle
        hPutStr handle (asModule source text)
        hClose handle
        (status, _, told) <- readProcessWithExitCode ghc (words' ++ flags source ++ [file]) ""
        pure (if status == ExitSuccess then Nothing else Just (faultIn file told))
    words' = ["-fno-code", "-v0", "-w", "-i" ++ prelude, "-XBangPatterns", "-XScopedTypeVariables"]

-- | A source as a module that has no program of GHC's in it, which would have to be one of IO. Its lines are those of the source.
asModule :: Source -> String -> String
asModule source text = heading ++ "{-# LINE 1 \"source.hs\" #-}\n" ++ renamed
  where
    heading = maybe "module Program where\n" (const "") (moduleName source)
    renamed = case moduleName source of
      Just (place, "Main") -> unlines [if count == line place then put line' else line' | (count, line') <- zip [1 ..] (lines text)]
        where
          put line' = let (before, after) = splitAt (column place - 1) line' in before ++ "Program" ++ drop (length "Main") after
      _ -> text

-- | The first fault in what GHC prints of a file.
faultIn :: FilePath -> String -> Fault
faultIn file told = case dropWhile (not . (mark `isPrefixOf`)) (lines told) of
  first : others
    | (row, ':' : rest) <- span isDigit (drop (length mark) first),
      (column', ':' : message) <- span isDigit rest ->
      Fault (Place (read row) (read column')) (shortened (message : takeWhile isMore others))
  _ -> Fault (Place 1 1) (shortened ["error:", if all isSpace told then " it ends without a word" else told])
  where
    mark = "source.hs:"
    isMore line' = not (all isSpace line') && not ("|" `isPrefixOf` dropWhile (\letter -> isSpace letter || isDigit letter) line')

    -- On one line, and not too long.
    shortened parts = "GHC refuses it:" ++ drop (length "error:") (short (unwords (map own (words (unwords parts)))))
    short whole = if length whole > 300 then take 300 whole ++ " .." else whole
    own word = if file `isPrefixOf` word then "source.hs" ++ drop (length file) word else word
