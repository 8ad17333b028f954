# shellcheck shell=bash disable=SC2154,SC2034
# Which inputs reset a design, and since when pairs are settled in a random run behind a reset. Read by sec-verilog.

# The inputs of the first file but for both clocks.
inputs() {
  awk -v clocks=" $(facts "$old_name" clock) $(facts "$new_name" clock) " '
    $1 == ".inputs" || more {
      for (at = more ? 1 : 2; at <= NF; at++)
        if ($at != "\\" && !index(clocks, " of " $at " ")) print $at
      more = $NF == "\\"
    }
    $1 == ".latch" || $1 == ".end" { exit }' "$folder/$old_name.blif"
}

# Whether the inputs that --reset-input names are there.
look_at_reset_inputs() {
  local it
  for it in "${reset_inputs[@]}"; do
    inputs | grep -q -x -F -e "${it%=[01]}" || stop 64 "--reset-input: the old design has no input ${it%=[01]}"
  done
}

# Which inputs are held at first, and at what, as `NAME VALUE`: those of --reset-input, or what is called so.
resets_of() {
  local it
  for it in "${reset_inputs[@]}"; do
    case $it in
      *=*) echo "${it%=*} ${it##*=}" ;;
      *) grep -x -F -e "$it" "$scratch/columns" | levels ;;
    esac
  done
  [ "${#reset_inputs[@]}" -gt 0 ] || grep -i -x -E '(.*_)?[a-z]?(rst|reset)(_?n|_?b|_l|_i|_ni)?' "$scratch/columns" | levels
}

# The level at which a reset of this name resets: 0 where the name says that it is turned around.
levels() {
  awk '{ low = tolower($1) ~ /(^|_)n_?(rst|reset)|(rst|reset)(_?n|_?b|_l|_ni)$/; print $1, low ? 0 : 1 }'
}

# A stimulus of random rows, the same each time, with the resets held in the first ones: stimulus ROWS HELD
stimulus() {
  awk -v rows="$1" -v held="$2" '
    FILENAME == ARGV[1] { held_at[$1] = $2; next }
    { names = names " " $1; name[++count] = $1 }
    END {
      print "inputs" names
      state = 1
      for (row = 0; row < rows; row++) {
        line = ""
        for (at = 1; at <= count; at++) {
          state = state * 16807 % 2147483647
          line = line (row < held && name[at] in held_at ? held_at[name[at]] : state > 1073741823)
        }
        print count ? line : "-"
      }
    }' "$scratch/resets" "$scratch/columns"
}

# A stimulus of random runs one behind the other, the same each time: in each the resets are held in the first rows, where all else is 0, and then
# let go, and an input is 1 half of the time, seldom or mostly, as falls for each run: runs COUNT ROWS HELD
runs() {
  awk -v runs="$1" -v rows="$2" -v held="$3" '
    function below(most) { state = state * 16807 % 2147483647; return state % most }
    FILENAME == ARGV[1] { held_at[$1] = $2; next }
    { names = names " " $1; name[++count] = $1; line = line ($1 in held_at ? held_at[$1] : 0) }
    END {
      print "inputs" names
      state = 1
      while (runs-- > 0) {
        for (at = 1; at <= count; at++) ones[at] = substr("4417", 1 + below(4), 1)
        for (row = 0; row < held; row++) print line
        for (; row < rows; row++) {
          free = ""
          for (at = 1; at <= count; at++) free = free (name[at] in held_at ? 1 - held_at[name[at]] : below(1024) < 128 * ones[at])
          print free
        }
      }
    }' "$scratch/resets" "$scratch/columns"
}

# Which inputs are held at what, in words.
resets_told() {
  awk '{ print $1 " at " $2 }' "$scratch/resets" | paste -s -d ',' | sed 's/,/, /g'
}

# A stimulus of some rows in which the resets are held, and all other inputs are 0: held_rows ROWS
held_rows() {
  awk -v rows="$1" '
    FILENAME == ARGV[1] { held_at[$1] = $2; next }
    { names = names " " $1; line = line ($1 in held_at ? held_at[$1] : 0) }
    END {
      print "inputs" names
      while (rows-- > 0) print line
    }' "$scratch/resets" "$scratch/columns"
}

# Sets `settled` to how many pairs are settled, and since when, in a random run behind a reset.
look_at_settling() {
  local rows=256 held=8 mode=() last never it
  grep -q '^classes' "$report" && mode=(--mode event)
  { inputs && sed -n 's/^exposed [0-9]* //p' "$report" | tr ' ' '\n'; } > "$scratch/columns"
  resets_of > "$scratch/resets"
  stimulus "$rows" "$held" > "$scratch/stimulus"
  it="a run of $rows random cycles"
  ! grep -q '^exposed [1-9]' "$report" || it+=' with the exposed flip-flops as inputs'
  [ ! -s "$scratch/resets" ] || it+=", the first $held with $(resets_told)"
  if ! sec_to "$scratch/settle" settle "$a" "$b" "$scratch/stimulus" "${mode[@]}"; then
    settled="$(head -n 1 "$scratch/settle") over $it"
    return
  fi
  last=$(awk '$(NF - 1) == "settled" && $NF > last { last = $NF } END { print last + 0 }' "$scratch/settle")
  mapfile -t never < <(sed -n 's/ not yet$//p' "$scratch/settle" | sed 's/^pair //')
  settled="$(sed -n 's/^settled \([0-9]* of [0-9]*\) .*/\1/p' "$scratch/settle") pairs by cycle $last of $it"
  [ "${#never[@]}" -eq 0 ] || settled+="; not yet $(some "${never[@]}")"
}
