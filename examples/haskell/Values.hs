-- | Reads and prints values as Gib does, for programs that GHC compiled.
module Values (Value (..), Reader, made, choice, answer) where

import Control.Exception (ArithException (..), evaluate, try)
import System.Exit (ExitCode (..), exitWith)
import System.IO

-- | Takes a value's tokens from the front.
newtype Reader a = Reader {reading :: [String] -> (a, [String])}

instance Functor Reader where
  fmap f (Reader inner) = Reader (\tokens -> let (found, rest) = inner tokens in (f found, rest))

instance Applicative Reader where
  pure found = Reader (\tokens -> (found, tokens))
  Reader function <*> Reader inner = Reader (\tokens -> let (f, rest) = function tokens; (found, after) = inner rest in (f found, after))

class Value a where
  put :: a -> ShowS
  get :: Reader a

-- | A constructor with its fields.
made :: String -> [ShowS] -> ShowS
made name [] = showString name
made name fields = showChar '(' . showString name . foldr (\field rest -> showChar ' ' . field . rest) (showChar ')') fields

-- | One of several constructors, by its name.
choice :: [(String, Reader a)] -> Reader a
choice several = Reader $ \tokens -> case tokens of
  "(" : name : rest -> let (found, after) = reading (named name) rest in (found, drop 1 after)
  name : rest -> reading (named name) rest
  [] -> error "the text ends too early"
  where
    named name = maybe (error ("no constructor " ++ name)) id (lookup name several)

instance Value Int where
  put number = showString (show number)
  get = Reader $ \tokens -> case tokens of
    token : rest -> (read token, rest)
    [] -> error "the text ends too early"

instance Value Bool where
  put truth = showString (show truth)
  get = choice [("True", pure True), ("False", pure False)]

instance Value () where
  put () = made "Unit" []
  get = choice [("Unit", pure ())]

instance Value a => Value [a] where
  put [] = made "Nil" []
  put (first : rest) = made "Cons" [put first, put rest]
  get = choice [("Nil", pure []), ("Cons", (:) <$> get <*> get)]

instance (Value a, Value b) => Value (a, b) where
  put (a, b) = made "Pair" [put a, put b]
  get = choice [("Pair", (,) <$> get <*> get)]

instance (Value a, Value b, Value c) => Value (a, b, c) where
  put (a, b, c) = made "Triple" [put a, put b, put c]
  get = choice [("Triple", (,,) <$> get <*> get <*> get)]

instance (Value a, Value b, Value c, Value d) => Value (a, b, c, d) where
  put (a, b, c, d) = made "Tuple4" [put a, put b, put c, put d]
  get = choice [("Tuple4", (,,,) <$> get <*> get <*> get <*> get)]

instance Value a => Value (Maybe a) where
  put Nothing = made "Nothing" []
  put (Just a) = made "Just" [put a]
  get = choice [("Nothing", pure Nothing), ("Just", Just <$> get)]

instance (Value a, Value b) => Value (Either a b) where
  put (Left a) = made "Left" [put a]
  put (Right b) = made "Right" [put b]
  get = choice [("Left", Left <$> get), ("Right", Right <$> get)]

instance Value Ordering where
  put order = made (show order) []
  get = choice [("LT", pure LT), ("EQ", pure EQ), ("GT", pure GT)]

tokensOf :: String -> [String]
tokensOf = words . concatMap (\letter -> if letter `elem` "()" then [' ', letter, ' '] else [letter])

-- | Prints what a program gives for the text of a value, or the line and the status with which Gib ends where a division has no value.
answer :: (Value a, Value b) => (a -> b) -> String -> IO ()
answer program text = do
  found <- try (let line = put (program (fst (reading get (tokensOf text)))) "\n" in line <$ evaluate (length line))
  case found of
    Right line -> putStr line
    Left DivideByZero -> hPutStrLn stderr "gib: division by zero" >> exitWith (ExitFailure 9)
    Left other -> hPutStrLn stderr (show other) >> exitWith (ExitFailure 10)
