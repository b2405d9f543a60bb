-- | Hints for values that are worked on at the same time, for where the package parallel is not there.
module Control.Parallel (par, pseq) where

import GHC.Conc (par, pseq)
