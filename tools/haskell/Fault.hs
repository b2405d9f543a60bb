{-# LANGUAGE FlexibleContexts #-}

-- | Places of a source, and what is told of a fault there.
module Fault (Place (..), Fault (..), refuse, nowhere) where

import Control.Monad.Except (MonadError, throwError)

-- | A line and a column, both counted from 1.
data Place = Place {line :: !Int, column :: !Int}
  deriving (Eq, Ord, Show)

-- | Where a program is refused, and why, with what would do.
data Fault = Fault Place String
  deriving (Show)

refuse :: MonadError Fault m => Place -> String -> m a
refuse place = throwError . Fault place

-- | The place of what no line of the source made.
nowhere :: Place
nowhere = Place (-1) (-1)
