-- | What Gibbon has for values that are worked on at the same time, for GHC.
module Gibbon.Prelude (par, (.||.), spawn, sync) where

-- | Both values, each of which another worker may make.
par :: a -> b -> (a, b)
par = (,)

(.||.) :: a -> b -> (a, b)
(.||.) = (,)

-- | A value that another worker may make while this one goes on.
spawn :: a -> a
spawn = id

-- | All spawned values are there.
sync :: ()
sync = ()
