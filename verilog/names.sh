# shellcheck shell=bash disable=SC2154,SC2016
# Flip-flops of two designs that have one name among all that Yosys knows for them, or that a map pairs, get one name in both files, and so do
# ports that a map pairs. What has no partner then is listed. Read by sec-verilog.

# For awk: `take(LINE)` keeps a line `OLD = NEW` of a map, or sets `fault`; `mapped(NAME)` is what a name of the new design is called in the
# old one, by the first line that fits, and sets `line_of` to it. Each * stands for any characters, as few as can be.
map_words='
  function parted(pattern, into,   count, cut) {
    count = 1
    while ((cut = index(pattern, "*")) > 0) {
      into[count++] = substr(pattern, 1, cut - 1)
      pattern = substr(pattern, cut + 1)
    }
    into[count] = pattern
    return count
  }
  function take(line,   words, left, right, count, it) {
    sub(/\r$/, "", line)
    if (line ~ /^[ \t]*(#.*)?$/) return
    sub(/^[ \t]+/, "", line)
    sub(/[ \t]+$/, "", line)
    if (split(line, words, /[ \t]+/) != 3 || words[2] != "=") { fault = "OLD = NEW is wanted"; return }
    count = parted(words[1], left)
    if (count != parted(words[3], right)) { fault = "both sides want equally many *"; return }
    stars[++lines] = count
    text[lines] = line
    for (it = 1; it <= count; it++) { old_piece[lines, it] = left[it]; new_piece[lines, it] = right[it] }
  }
  function by_line(line, name,   count, it, place, rest, to) {
    count = stars[line]
    if (count == 1) return name == new_piece[line, 1] ? old_piece[line, 1] : ""
    if (index(name, new_piece[line, 1]) != 1) return ""
    rest = substr(name, length(new_piece[line, 1]) + 1)
    to = old_piece[line, 1]
    for (it = 2; it < count; it++) {
      place = index(rest, new_piece[line, it])
      if (!place) return ""
      to = to substr(rest, 1, place - 1) old_piece[line, it]
      rest = substr(rest, place + length(new_piece[line, it]))
    }
    place = length(rest) - length(new_piece[line, count])
    if (place < 0 || substr(rest, place + 1) != new_piece[line, count]) return ""
    return to substr(rest, 1, place) old_piece[line, count]
  }
  function mapped(name,   line, to, suffix) {
    for (line = 1; line <= lines; line++)
      if ((to = by_line(line, name)) != "") { line_of = line; return to }
    # What is said of a net is said of the flip-flop before its reset, too.
    if (match(name, /\.flop\.[a-z_]+$/)) {
      suffix = substr(name, RSTART)
      to = mapped(substr(name, 1, RSTART - 1))
      return to == "" ? "" : to suffix
    }
    return ""
  }'

# Looks at the file of a map before Yosys runs: what is wrong with its first line that is none.
look_at_map() {
  local fault
  [ -n "$map" ] || return 0
  { [ -f "$map" ] && [ -r "$map" ]; } || stop 64 "--map: $map can't be read"
  fault=$(awk "$map_words"'{ take($0); if (fault != "") { print "line " FNR ": " fault; exit } }' "$map")
  [ -z "$fault" ] || stop 64 "--map: $map $fault"
}

# For awk: the names of both files, of latches, inputs and outputs, and of latches all that Yosys knows: a file of all names has a buffer for
# each. `named[SIDE, NAME]` is the latch of a name.
read_words='
  function root(side, name) {
    while ((side, name) in from) name = from[side, name]
    return name
  }
  FNR == 1 { side = FILENAME == old || FILENAME == ARGV[1] ? "old" : "new"; is_names = FILENAME == old || FILENAME == new; buffer = 0; kind = "" }
  is_names && buffer && NF == 2 && $1 == "1" && $2 == "1" { from[side, alias] = source; aliases[side, ++alias_count[side]] = alias; aliases[side, ++alias_count[side]] = source }
  is_names { buffer = $1 == ".names" && NF == 3; source = $2; alias = $3; next }
  kind == "" && ($1 == ".inputs" || $1 == ".outputs") { kind = $1; $1 = "" }
  kind != "" { for (at = 1; at <= NF; at++) if ($at != "" && $at != "\\") { ports[side, kind, ++port_count[side, kind]] = $at; is_port[side, kind, $at] = used[side, $at] = 1 }; if ($NF != "\\") kind = ""; next }
  copied != "" && $1 == "1" && $2 == "1" { copy[side, copied] = source }
  { copied = $1 == ".names" && NF == 3 ? $3 : ""; source = $2 }
  $1 ~ /^\./ { for (at = 2; at <= NF; at++) used[side, $at] = 1 }
  $1 == ".latch" { latches[side, ++count[side]] = $3 }
  # A flip-flop that Yosys knows as a part of a cell, as `B.flop.kept` behind a reset, is so of each name of the net B.
  function gather_parts(   at, name, base, suffix, of_base, suffixes, parts, it, known) {
    for (at = 1; at <= count[side]; at++) {
      name = latches[side, at]
      if (!match(name, /\.flop\.[a-z_]+$/)) continue
      base = root(side, substr(name, 1, RSTART - 1))
      suffix = substr(name, RSTART)
      suffixes[base] = suffixes[base] " " suffix
      of_base[base, suffix] = name
    }
    known = alias_count[side]
    for (at = 1; at <= known; at++) {
      base = root(side, aliases[side, at])
      if (aliases[side, at] ~ /^\$/ || !(base in suffixes)) continue
      split(suffixes[base], parts, " ")
      for (it in parts) {
        name = aliases[side, at] parts[it]
        if ((side, name) in named || (side, name) in used) continue
        named[side, name] = of_base[base, parts[it]]
        aliases[side, ++alias_count[side]] = name
      }
    }
  }
  function gather(   it, at, name, latch) {
    split("old new", sides)
    for (it = 1; it <= 2; it++) {
      side = sides[it]
      for (at = 1; at <= count[side]; at++) of[side, root(side, latches[side, at])] = latches[side, at]
      for (at = 1; at <= count[side]; at++) named[side, latches[side, at]] = latches[side, at]
      for (at = 1; at <= alias_count[side]; at++) {
        name = aliases[side, at]
        latch = of[side, root(side, name)]
        if (latch != "" && name !~ /^\$/ && (!((side, name) in used) || copy[side, name] == latch)) named[side, name] = latch
      }
      gather_parts()
    }
  }'

# What a map calls ports and flip-flops of the new file otherwise: lines `new KIND FROM TO`, where KIND is `port` for an output, which keeps
# its net, and `net` for all else. What else had the name goes out of its way. Behind them a line `unused LINE` for each line that fits nothing.
mapped_names() {
  awk -v old="$scratch/$old_name.names" -v new="$scratch/$new_name.names" -v map="$map" "$map_words $read_words"'
    function goes(name, to) {
      used_line[line_of] = 1
      if (name != to && !(name in net) && !(to in taken)) { net[name] = to; taken[to] = name; order[++total] = name }
    }
    END {
      while ((getline line < map) > 0) take(line)
      gather()
      for (at = 1; at <= port_count["new", ".inputs"]; at++) {
        name = ports["new", ".inputs", at]
        to = mapped(name)
        if (to != "" && ("old", ".inputs", to) in is_port) goes(name, to)
      }
      for (at = 1; at <= port_count["new", ".outputs"]; at++) {
        name = ports["new", ".outputs", at]
        to = mapped(name)
        if (to != "" && ("old", ".outputs", to) in is_port) {
          used_line[line_of] = 1
          if (name != to && !(to in is_out)) { is_out[to] = 1; out[++outs] = name; out_to[outs] = to }
        }
      }
      for (at = 1; at <= count["new"] + alias_count["new"]; at++) {
        name = at <= count["new"] ? latches["new", at] : aliases["new", at - count["new"]]
        if (!(("new", name) in named)) continue
        to = mapped(name)
        if (to != "" && ("old", to) in named) goes(named["new", name], named["old", to])
      }
      for (at = 1; at <= total; at++) {
        print "new net", order[at], net[order[at]]
        to = net[order[at]]
        if ((("new", to) in used) && !(to in net)) print "new net", to, to "~"
      }
      for (at = 1; at <= outs; at++) {
        print "new port", out[at], out_to[at]
        if ((("new", out_to[at]) in used) && !(out_to[at] in net) && !(("new", ".outputs", out_to[at]) in is_port)) print "new net", out_to[at], out_to[at] "~"
      }
      for (at = 1; at <= lines; at++) if (!(at in used_line)) print "unused", text[at]
    }' "$folder/$old_name.blif" "$folder/$new_name.blif" "$scratch/$old_name.names" "$scratch/$new_name.names"
}

# Which latch of the two files is to have which other name: lines `SIDE net FROM TO`.
shared_names() {
  awk -v old="$scratch/$old_name.names" -v new="$scratch/$new_name.names" "$read_words"'
    END {
      gather()
      for (at = 1; at <= count["old"]; at++)
        if (("new", latches["old", at]) in named && named["new", latches["old", at]] == latches["old", at]) paired["old", latches["old", at]] = paired["new", latches["old", at]] = 1
      for (key in named) {
        split(key, parts, SUBSEP)
        if (parts[1] == "old" && ("new", parts[2]) in named) shared[++total] = parts[2]
      }
      for (at = 1; at <= total; at++) {
        name = shared[at]
        left = named["old", name]
        right = named["new", name]
        if (("old", left) in paired || ("new", right) in paired) continue
        best[left] = best[left] == "" || name < best[left] ? name : best[left]
      }
      for (at = 1; at <= count["old"]; at++) {
        left = latches["old", at]
        if (!(left in best)) continue
        name = best[left]
        right = named["new", name]
        if (("new", right) in paired) continue
        paired["old", left] = paired["new", right] = 1
        if (left != name) print "old net", left, name
        if (right != name) print "new net", right, name
      }
    }' "$folder/$old_name.blif" "$folder/$new_name.blif" "$scratch/$old_name.names" "$scratch/$new_name.names"
}

# Gives a file its other names: rename SIDE FROM TO, from and to being files. An output whose net is called otherwise gets a buffer, and one that
# was a buffer of what has its name now loses it.
rename() {
  awk -v side="$1" '
    FILENAME == ARGV[1] { if ($1 == side && $2 == "net") net[$3] = $4; else if ($1 == side) port[$3] = $4; next }
    $1 == ".outputs" || in_outputs {
      for (at = 1; at <= NF; at++) {
        if ($at == ".outputs" || $at == "\\") continue
        from = $at in net ? net[$at] : $at
        if ($at in port) $at = port[$at]
        if (from != $at) buffers = buffers ".names " from " " $at "\n1 1\n"
      }
      in_outputs = $NF == "\\"
      print
      next
    }
    $1 == ".names" && NF == 3 && ($2 in net) && net[$2] == $3 && !($3 in net) { skipped = 1; next }
    $1 ~ /^\./ { skipped = 0 }
    skipped { next }
    $1 == ".end" { printf "%s", buffers; buffers = "" }
    $1 ~ /^\./ || more { for (at = 1; at <= NF; at++) if ($at in net) $at = net[$at] }
    { more = $NF == "\\"; print }
    END { printf "%s", buffers }' "$scratch/renaming" "$2" > "$3" || exit 73
}

# Gives both files the names of a list of `SIDE KIND FROM TO`, the same for what is known of them: rename_all LIST
rename_all() {
  local name side
  cp "$1" "$scratch/renaming" || exit 73
  for name in "$old_name" "$new_name"; do
    side=${name%.x?}
    grep -q "^$side " "$scratch/renaming" || continue
    rename "$side" "$folder/$name.blif" "$scratch/renamed"
    cp "$scratch/renamed" "$folder/$name.blif" || exit 73
    rename "$side" "$scratch/$name.names" "$scratch/renamed"
    cp "$scratch/renamed" "$scratch/$name.names" || exit 73
  done
}

# Gives both files the names that they share, first those that the map says.
share_names() {
  local it
  if [ -n "$map" ]; then
    mapped_names > "$scratch/mapped" || exit 73
    sed -n 's/^unused //p' "$scratch/mapped" | while IFS= read -r it; do say "--map: no name of both designs fits $it"; done
    rename_all "$scratch/mapped"
  fi
  shared_names > "$scratch/shared" || exit 73
  rename_all "$scratch/shared"
}

# What both files have alone, a line each, with what is called most like it in the other one: alone WORD, which is .latch, .inputs or .outputs
alone() {
  awk -v word="$1" '
    function alike(left, right,   least, front, back) {
      least = length(left) < length(right) ? length(left) : length(right)
      for (front = 0; front < least && substr(left, front + 1, 1) == substr(right, front + 1, 1); front++);
      for (back = 0; back < least - front && substr(left, length(left) - back, 1) == substr(right, length(right) - back, 1); back++);
      return front + back
    }
    function told(side, other,   at, it, most, best, name) {
      for (at = 1; at <= count[side]; at++) {
        name = names[side, at]
        if ((other, name) in is_there) continue
        most = length(name) / 2
        best = ""
        if (name !~ /^\$/)
          for (it = 1; it <= count[other]; it++)
            if (!((side, names[other, it]) in is_there) && alike(name, names[other, it]) > most) { best = names[other, it]; most = alike(name, best) }
        print side " " name (best == "" ? "" : " (" other ": " best "?)")
      }
    }
    FNR == 1 { side = FILENAME == ARGV[1] ? "old" : "new"; more = 0 }
    word == ".latch" { if ($1 == word) { names[side, ++count[side]] = $3; is_there[side, $3] = 1 }; next }
    $1 == word || more {
      for (at = more ? 1 : 2; at <= NF; at++) if ($at != "\\") { names[side, ++count[side]] = $at; is_there[side, $at] = 1 }
      more = $NF == "\\"
    }
    END { told("old", "new"); told("new", "old") }' "$a" "$b"
}

# Behind an answer that rests on names: what has no partner, whole.
tell_alone() {
  local word kind
  case $(answer_of "$report") in
    'unpaired '*) alone .latch > "$scratch/alone" && kind=flip-flops ;;
    'refused Interface '*)
      { alone .inputs | sed 's/ / input /' && alone .outputs | sed 's/ / output /'; } > "$scratch/alone" && kind=ports
      ;;
    *) return 0 ;;
  esac
  [ -s "$scratch/alone" ] || return 0
  say "$kind without a partner of their name; --map FILE with lines OLD = NEW gives them one:"
  while IFS= read -r word; do say "  $word"; done < "$scratch/alone"
}
