-- | A document with sections: they are numbered, and what they hold is counted and listed.
module Document where

data Block
  = Paragraph Int
  | Figure Int
  | Section Int [Block]

-- | Words, figures, the deepest level, the sections with their numbers and levels, and the numbered document.
data Report = Report Int Int Int [(Int, Int)] [Block]

-- | Numbers sections and figures from these numbers on, and gives the next ones.
number :: Int -> Int -> [Block] -> ([Block], Int, Int)
number section figure [] = ([], section, figure)
number section figure (block : blocks) = (done : rest, section'', figure'')
  where
    (done, section', figure') = numberBlock section figure block
    (rest, section'', figure'') = number section' figure' blocks

numberBlock :: Int -> Int -> Block -> (Block, Int, Int)
numberBlock section figure block = case block of
  Paragraph count -> (Paragraph count, section, figure)
  Figure _ -> (Figure figure, section, figure + 1)
  Section _ body -> (Section section inner, section', figure')
    where
      (inner, section', figure') = number (section + 1) figure body

wordsIn :: [Block] -> Int
wordsIn [] = 0
wordsIn (Paragraph count : blocks) = count + wordsIn blocks
wordsIn (Figure _ : blocks) = wordsIn blocks
wordsIn (Section _ body : blocks) = wordsIn body + wordsIn blocks

figuresIn :: [Block] -> Int
figuresIn [] = 0
figuresIn (Figure _ : blocks) = 1 + figuresIn blocks
figuresIn (Section _ body : blocks) = figuresIn body + figuresIn blocks
figuresIn (_ : blocks) = figuresIn blocks

depthOf :: [Block] -> Int
depthOf [] = 0
depthOf (Section _ body : blocks) = max (1 + depthOf body) (depthOf blocks)
depthOf (_ : blocks) = depthOf blocks

-- | The sections in order, in front of others.
contents :: Int -> [Block] -> [(Int, Int)] -> [(Int, Int)]
contents _ [] others = others
contents level (Section n body : blocks) others = (n, level) : contents (level + 1) body (contents level blocks others)
contents level (_ : blocks) others = contents level blocks others

gibbon_main :: [Block] -> Report
gibbon_main document = Report (wordsIn done) (figuresIn done) (depthOf done) (contents 1 done []) done
  where
    (done, _, _) = number 1 1 document
