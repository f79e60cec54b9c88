#!/bin/sh
# Joins the parts of a check to the report of the whole, byte for byte.
#
#     sh examples/join_parts.sh FOLDER COUNT > REPORT
#
# FOLDER/0, FOLDER/1, .. have what `mpdbg check` wrote with --piece 0, --piece 1, .., as many as COUNT says, which --pieces tells. Leaves
# and witnesses are numbered on from part to part, and one last line counts them all. Where a part is missing or cut off, or where there
# is one too many, nothing is written: a line on standard error says which, and the status is 2.

usage() {
  echo "sh $0 FOLDER COUNT > REPORT" >&2
  exit 2
}

[ $# -eq 2 ] || usage
case $2 in '' | *[!0-9]*) usage ;; esac

exec awk -v folder="$1" -v count="$2" '
function refuse(number, what) {
  print "part " number " of " count " " what | "cat >&2"
  close("cat >&2")
  exit 2
}

# How many leaves a part has by its last line; so many must stand in front.
function leaves_of(number,    name, line, last, got, found) {
  name = folder "/" number
  found = 0
  last = ""
  while ((got = (getline line < name)) > 0) {
    if (line ~ /^leaf /) found++
    last = line
  }
  close(name)
  if (got < 0) refuse(number, "is missing")
  if (last !~ /^leaves [0-9]+ more (yes|no)$/) refuse(number, "has no last line")
  if (last ~ / yes$/) more = "yes"
  sub(/^leaves /, "", last)
  if (found != last + 0) refuse(number, "lacks leaves")
  return found
}

# The leaves and witnesses of a part, each with its number raised by that of the leaves before.
function write_part(number, before,    name, line, words) {
  name = folder "/" number
  while ((getline line < name) > 0) {
    if (match(line, /^(leaf|witness) [0-9]+/)) {
      split(substr(line, 1, RLENGTH), words, " ")
      print words[1] " " (words[2] + before) substr(line, RLENGTH + 1)
    }
  }
  close(name)
}

BEGIN {
  more = "no"
  for (number = 0; number < count; number++) leaves[number] = leaves_of(number)
  if ((getline line < (folder "/" (count + 0))) >= 0) refuse(count, "is one too many")
  before = 0
  for (number = 0; number < count; number++) {
    write_part(number, before)
    before += leaves[number]
  }
  print "leaves " before " more " more
}
'
