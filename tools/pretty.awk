# Lays the text of a value out in lines, from its tokens, one a line. What fits into a line stands in one; else the fields of a constructor
# stand below each other, indented, or, where all but the last fit and none is made as the whole is, the last one below: a list is a cell
# a line, and all cells are indented alike. Below level `deep`
# stands `..`. Ends with status 1 where the tokens are no text.

function add(start) {
  if (top) width[stack[top]] += (names[stack[top]]++ ? 1 : 0) + width[start]
  else values++
}

# Prints a value on the line as it is, without what is too deep.
function flat(start,    at) {
  for (at = start; at <= last[start]; at++) {
    put((at > start && token[at - 1] != "(" && token[at] != ")" ? " " : "") (at in hidden ? ".." : token[at]))
    if (at in hidden) at = last[at]
  }
}

function put(text) { printf "%s", text; column += length(text) }

function line(level) { printf "\n%*s", level, ""; column = level }

# What is still to be done, the next thing last: a value on a line of its own at an indentation, or the end of one.
function later(what, indent) { due++; todo[due] = what; indents[due] = indent }

# The fields of a constructor: how many there are, and where each begins.
function fields(start,    at, count) {
  count = 0
  for (at = start + 2; at < last[start]; at = last[at] + 1) field[++count] = at
  return count
}

# Whether a value is made by that constructor with fields.
function is_made(start, name) { return token[start] == "(" && token[start + 1] == name }

function lay_out(start, indent,    count, place, room, mixed) {
  if (token[start] != "(" || start in hidden || column + width[start] <= WIDTH) { flat(start); return }
  count = fields(start)
  put("(" token[start + 1])
  room = column
  for (place = 1; place < count; place++) room += 1 + width[field[place]]
  mixed = 0
  for (place = 1; place < count; place++) if (is_made(field[place], token[start + 1])) mixed = 1
  later(0, 0)
  if (room <= WIDTH && !mixed) {
    for (place = 1; place < count; place++) { put(" "); flat(field[place]) }
    later(field[count], is_made(field[count], token[start + 1]) ? indent : deeper(indent))
    return
  }
  for (place = 1; token[field[place]] != "("; place++) { put(" "); flat(field[place]) }
  for (room = count; room >= place; room--) later(field[room], deeper(indent))
}

function deeper(indent) { return indent < 60 ? indent + 2 : indent }

BEGIN { WIDTH = 100 }
{ token[NR] = $0 }
END {
  for (at = 1; at <= NR; at++) {
    if (token[at] == "(") {
      stack[++top] = at
      width[at] = 2
      if (top > deep) hidden[at]
    } else if (token[at] == ")") {
      if (!top) exit 1
      start = stack[top--]
      if (names[start] < 2) exit 1
      last[start] = at
      if (start in hidden) width[start] = 2
      add(start)
    } else {
      width[at] = length(token[at]); last[at] = at
      add(at)
    }
  }
  if (top || values != 1) exit 1
  lay_out(1, 0)
  while (due) {
    what = todo[due]; indent = indents[due]; due--
    if (what) { line(indent); lay_out(what, indent) } else put(")")
  }
  print ""
}
