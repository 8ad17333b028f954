# shellcheck shell=bash disable=SC2154
# What is asked of two BLIF files, `$a` and `$b`. Read by sec-verilog.

# On a terminal: what takes how long, until `ticked`: ticking WHAT..
ticker=''
ticking() {
  local begun=$SECONDS
  [ -t 2 ] || return 0
  while sleep 1; do
    printf '\rsec-verilog: %.60s, %d s\033[K' "$*" "$((SECONDS - begun))" >&2
  done &
  ticker=$!
}

ticked() {
  [ -n "$ticker" ] || return 0
  kill "$ticker" 2>/dev/null
  wait "$ticker" 2>/dev/null
  ticker=''
  printf '\r\033[K' >&2
}

# At an interrupt what was answered is kept, where a folder is: interrupted STATUS FILE
interrupted() {
  if [ -n "$keep" ]; then
    cat "${told_files[@]}" "$2" > "$folder/report" 2>/dev/null
    say "interrupted; $folder/report has what was answered until then"
  fi
  exit "$1"
}

# Waits for a child, which a signal to this script reaches as well: awaited CHILD
awaited() {
  local child=$1 status
  trap 'kill -TERM "$child" 2>/dev/null' TERM HUP INT
  wait "$child"
  status=$?
  while kill -0 "$child" 2>/dev/null; do
    wait "$child"
    status=$?
  done
  trap - TERM HUP INT
  return "$status"
}

# Runs sec, or sec-pairs where the first word is `pairs`, which a signal to this script reaches as well: sec_to FILE WORDS..
bound=() told_files=()
sec_to() {
  local file=$1 status bounds=("${bound[@]}") tool
  shift
  tool=("$here/sec" "$@")
  [ "$1" != pairs ] || tool=("$here/sec-pairs" "${@:2}")
  [ -z "$seconds" ] || [ "${#bound[@]}" -gt 0 ] || bounds=(timeout "$seconds")
  [ "$1" = pairs ] || ticking "$(asked_words "$@")"
  "${bounds[@]}" "${tool[@]}" > "$file" < /dev/null &
  awaited $!
  status=$?
  ticked
  [ "$status" -lt 128 ] || interrupted "$status" "$file"
  if [ "$status" -eq 124 ] && [ "${#bound[@]}" -eq 0 ]; then
    say "sec $1 has no answer within $seconds seconds"
    status=3
  fi
  case $1 in
    check | pairs | induct) told_files+=("$file") ;;
  esac
  return "$status"
}

# The command and its options, without the files.
asked_words() {
  local it told=''
  for it in "$@"; do
    case $it in
      */*) ;;
      *) told+=" $it" ;;
    esac
  done
  echo "sec$told"
}

# Whether sec takes the words of check, which is asked before Yosys runs. The first call builds the program, and tells how far it is.
ask_for_words() {
  : > "$scratch/empty"
  sec_to "$scratch/words" graph "$scratch/empty"
  [ $? -ne 70 ] || exit 70
  sec_to "$scratch/words" check "$scratch/empty" "$scratch/empty" "${check[@]}" 2> "$scratch/said"
  [ $? -ne 5 ] || stop 5 "sec check refuses these words: ${check[*]}"
}

# Whether both designs are without feedback, in a mode.
acyclic() {
  "$here/sec" graph "$a" "$@" | grep -q '^acyclic$' && "$here/sec" graph "$b" "$@" | grep -q '^acyclic$'
}

# Whether one design has feedback, in a mode. A design that is refused has none; `check` tells why.
cyclic() {
  "$here/sec" graph "$a" "$@" | grep -q '^cycle ' || "$here/sec" graph "$b" "$@" | grep -q '^cycle '
}

# What a report answers, in a word or two.
answer_of() {
  sed -n 's/^verdict \([a-z-]*\( never .*\)\{0,1\}\).*/\1/p; /^refused /p; /^cyclic /p; /^unpaired /p; /^limit /p' "$1" | head -n 1
}

# How strong an answer is, by its status; the least number is that of the strongest.
strength() {
  case $1 in
    1) echo 0 ;;
    0) echo 1 ;;
    2 | 3) echo "$1" ;;
    9) echo 4 ;;
    *) echo 5 ;;
  esac
}

# Asks check, and whether each pair has what makes it settle, and sets `status` and `report`: ask NAME WORDS..
ask() {
  local words=("${check[@]}" "${@:2}") by_solver=()
  case " ${words[*]} " in
    *' --settles '*) ;;
    *) words+=(--settles) ;;
  esac
  # Certificates are of the plain form.
  case " ${words[*]} " in
    *' event '* | *=event' '* | *' --assume'*) ;;
    *) by_solver=(${solver:+--solver "$solver"}) ;;
  esac
  report=$scratch/$1.$number status=0
  printf '%s\n' "${words[@]}" > "$report.words"
  if [ -n "$jobs$solver" ]; then
    sec_to "$report" pairs "$a" "$b" "$scratch/pairs.$1.$number" "${words[@]}" ${jobs:+--jobs "$jobs"} "${by_solver[@]}" || status=$?
  else
    sec_to "$report" check "$a" "$b" "${words[@]}" || status=$?
  fi
}

# Asks from any power-up. Where it is left to this script, --expose comes first, which mostly is quick, and then the event mode.
from_any_power_up() {
  local event=() first second
  if [ -n "$is_given" ] || ! cyclic; then
    ask check
    return
  fi
  ask expose --expose
  case $status in
    2 | 3 | 9)
      if acyclic --mode event; then
        event=(--mode event)
      elif cyclic --mode event; then
        event=(--mode event --expose)
      fi
      ;;
  esac
  if [ "${#event[@]}" -eq 0 ]; then
    say "there is feedback: --expose"
    return
  fi
  first=$status
  say "there is feedback; --expose: $(answer_of "$report"); ${event[*]} is tried, too"
  ask event "${event[@]}"
  second=$(answer_of "$report")
  if [ "$(strength "$status")" -lt "$(strength "$first")" ]; then
    say "${event[*]}: $second"
  else
    say "${event[*]}: $second; the answer of --expose is taken"
    report=$scratch/expose.$number status=$first
  fi
}

# Of pairs that fail, the one with the least depth, or the fewest nodes, is asked by itself where the verdict has another that is no simpler: the
# report has that verdict then.
look_at_simplest() {
  local name words=() told=$scratch/simplest.$number
  [ -s "$report.words" ] || return 0
  name=$(awk '
    $1 == "pair" && $5 ~ /^(different|not-shown)$/ && ($3 == "depth" || $3 == "nodes") { if (best == "" || $4 < least) { best = $2; least = $4 }; size[$2] = $4 }
    $1 == "next" && $5 == "not-shown" { size["next " $2] = $4 }
    $1 == "verdict" && $2 == "different" { named = $3 }
    $1 == "verdict" && $2 == "not-shown" && $3 ~ /^(cut|events)$/ { named = $4 == "next" ? "next " $5 : $4 }
    END { if (named != "" && best != "" && best != named && least < size[named]) print best }' "$report")
  [ -n "$name" ] || return 0
  mapfile -t words < "$report.words"
  one_output "$name" "$a" "$scratch/one.old.blif"
  one_output "$name" "$b" "$scratch/one.new.blif"
  sec_to "$told" check "$scratch/one.old.blif" "$scratch/one.new.blif" "${words[@]}"
  [ $? -eq "$status" ] || return 0
  { sed '/^verdict/,$d' "$report" && sed -n '/^verdict/,$p' "$told"; } > "$report.simplest" || exit 73
  report=$report.simplest
}

# A file with the initial value 0 where a flip-flop has none: started FROM TO
started() {
  awk '$1 == ".latch" && NF % 2 { print $0, 0; next } $1 == ".latch" && $NF !~ /^[01]$/ { $NF = 0 } { print }' "$1" > "$2" || exit 73
}

# Searches two files for a difference in the first cycles of runs from their initial values, for 30 seconds at most, and sets `found` to the
# report and `told` to the status: search NAME OLD NEW WORDS..
search() {
  local words=() bound=()
  mapfile -t words < <(valued --conflicts --assume)
  ! command -v timeout >/dev/null || bound=(timeout 30)
  found=$scratch/$1.$number told=0
  sec_to "$found" check "$2" "$3" "${words[@]}" --reset --cycles "$cycles" "${@:4}" || told=$?
}

# Whether ties of signals show two files equal, for 30 seconds at most; sets `found` to the report and `told` to the status:
# tied NAME OLD NEW WORDS..
tied() {
  local words=() bound=()
  mapfile -t words < <(valued --conflicts --assume)
  ! command -v timeout >/dev/null || bound=(timeout 30)
  found=$scratch/$1.$number told=0
  sec_to "$found" induct "$2" "$3" "${words[@]}" --signals "${@:4}" 2> "$scratch/said" || told=$?
}

# In how many cycles a search found no difference.
searched() {
  sed -n 's/^verdict not-shown cycles \([0-9]*\)$/\1/p' "$found"
}

# Behind a not-shown from the initial values of two files: ties of signals that show them equal, or a difference in the first cycles, is the answer.
by_signals_or_search() {
  local found told
  tied signals "$1" "$2"
  if [ "$told" -eq 0 ]; then
    report=$found status=0 way='induct --signals'
    return
  fi
  search cycles "$1" "$2"
  case $told in
    1) report=$found status=1 way="check --reset --cycles $cycles" ;;
    2) way+="; no difference within $(searched) cycles" ;;
  esac
}

# A file with one output alone: one_output NAME FROM TO
one_output() {
  NAME=$1 awk '
    $1 == ".outputs" || more { if (!told++) print ".outputs " ENVIRON["NAME"]; more = $NF == "\\"; next }
    { print }' "$2" > "$3" || exit 73
}

# Behind a search that ended at flip-flops of which a reset says nothing, or at a limit, tries whether an output is known in both designs and differs: where
# the circuit of what is known shows one, the search over the rows before that, with this output alone, shows it of the designs. Sets `found` and `told` as
# that does: known_difference ROWS_OF_RESET HELD
known_difference() {
  local rails=$scratch/rails guess at name
  awk -v old="$a" -v resets="$scratch/resets" -v columns="$scratch/columns" -v held="$2" -v head="$rails.head" -v body="$rails.body" -v none="$rails.none" \
    -f "$parts/rails.awk" "$scratch/resets" "$scratch/columns" "$a" "$b" || exit 73
  [ -s "$rails.none" ] || return 0
  { cat "$rails.head" "$rails.body" && echo .end; } > "$rails.blif" || exit 73
  { cat "$rails.head" "$rails.none" && echo .end; } > "$rails.0.blif" || exit 73
  cycles=$((cycles + $2 > 1000 ? 1000 : cycles + $2)) search guess "$rails.blif" "$rails.0.blif"
  [ "$told" -eq 1 ] || return 0
  guess=$found
  name=$(sed -n 's/^verdict different differs:\(.*\) cycle .*/\1/p' "$guess")
  at=$(sed -n 's/^verdict different .* cycle \([0-9]*\) values .*/\1/p' "$guess")
  # The difference may come while the reset is held.
  {
    head -n $((at > 0 && at < $2 ? at + 1 : $2 + 1)) "$1"
    sed '1,/^verdict/d' "$guess" | awk -v held="$2" -v last="$at" 'NR > held + 1 && NR <= last + 1'
  } > "$scratch/rows.$number"
  one_output "$name" "$a" "$scratch/one.old.blif"
  one_output "$name" "$b" "$scratch/one.new.blif"
  cycles=0 search known "$scratch/one.old.blif" "$scratch/one.new.blif" --after "$scratch/rows.$number"
}

# Tries before that whether random runs behind the reset show an output that is known in both designs and differs; of these runs the last one leads there,
# or that and some before it, where it reads what they wrote. The search behind their rows, with this output alone, shows it of the designs. Sets `found`
# and `told` as that does: known_in_runs ROWS_OF_RESET HELD
known_in_runs() {
  local length=$(($2 + cycles + 1)) count name at run back bound=()
  ! command -v timeout >/dev/null || bound=(timeout 30)
  for count in 20 60 200; do
    runs "$count" "$length" "$2" > "$scratch/runs.$number"
    sec_to "$scratch/known" replay "$a" "$b" "$scratch/runs.$number" --reset --after "$1"
    read -r at name < <(sed -n 's/^cycle \([0-9]*\) pair \([^ ]*\) values .*/\1 \2/p' "$scratch/known")
    [ -z "$name" ] || break
  done
  [ -n "$name" ] || return 0
  one_output "$name" "$a" "$scratch/one.old.blif"
  one_output "$name" "$b" "$scratch/one.new.blif"
  run=$((at / length)) back=0
  while :; do
    [ "$back" -lt "$run" ] || back=$run
    { cat "$1" && sed -n "$(((run - back) * length + 2)),$((at + 1))p" "$scratch/runs.$number"; } > "$scratch/rows.$number"
    cycles=0 search known "$scratch/one.old.blif" "$scratch/one.new.blif" --after "$scratch/rows.$number"
    [ "$told" -ne 1 ] && [ "$back" -lt "$run" ] || return 0
    back=$((2 * back + 1))
  done
}

# Where it isn't decided from any power-up, and inputs reset the designs: that ties of signals show them equal behind a reset is the answer, or
# else a difference in the first cycles there. Sets `behind` to what was found. What is known behind the rows of a reset is so whatever the
# flip-flops held before.
behind_a_reset() {
  local found told before held=8 it unknown='' assumed=''
  case "$is_given,$status" in
    ,[239]) ;;
    *) return 0 ;;
  esac
  inputs > "$scratch/columns"
  resets_of > "$scratch/resets"
  [ -s "$scratch/resets" ] || return 0
  held_rows "$held" > "$scratch/reset.$number"
  it="behind $held cycles with $(resets_told)"
  [ -z "$(valued --assume)" ] || assumed=', where the assumption holds from there on'
  tied signals "$a" "$b" --after "$scratch/reset.$number"
  if [ "$told" -eq 0 ]; then
    report=$found status=0 exposed=''
    behind="; equal $it$assumed, by induct --signals --after"
    return
  fi
  search behind "$a" "$b" --after "$scratch/reset.$number"
  if [ "$told" -eq 2 ] && [ -z "$(searched)" ]; then
    unknown=$(awk '$1 == "unknown" { count += $3 } END { print count + 0 }' "$found")
  fi
  # The rows that lead to a known difference are rows of the reset, which an assumption doesn't speak of.
  case $assumed,$told,$unknown in
    ,2,?* | ,3,* | ,124,*)
      before=$told
      known_in_runs "$scratch/reset.$number" "$held"
      [ "$told" -eq 1 ] || told=$before
      [ "$told" -eq 1 ] || known_difference "$scratch/reset.$number" "$held"
      [ "$told" -eq 1 ] || told=$before
      ;;
  esac
  case $told in
    1)
      report=$found status=1 exposed=''
      behind="; different $it$assumed, by check --reset --cycles $cycles --after"
      ;;
    0 | 2)
      if [ -n "$unknown" ]; then
        behind="; $it not shown either, since $unknown flip-flops stay unknown"
      else
        behind="; no difference within $(searched) cycles $it$assumed"
      fi
      ;;
    3) behind="; nothing decided $it" ;;
    124) behind="; nothing decided within 30 seconds $it" ;;
  esac
}

# Asks from the initial values of two files, and sets `way` too. By induct without --signals no inputs are assumed, so an answer of equal says
# more. With --cycles a given number of cycles is asked about, with feedback too.
from_initial_values() {
  local words=() given=()
  mapfile -t given < <(valued --cycles)
  report=$scratch/initial.$number status=0
  if [ "${#given[@]}" -eq 0 ] && cyclic; then
    way=induct
    mapfile -t words < <(valued --conflicts)
    sec_to "$report" induct "$1" "$2" "${words[@]}" || status=$?
    [ "$status" -ne 2 ] || by_signals_or_search "$1" "$2"
  else
    way='check --reset'
    mapfile -t words < <(valued --conflicts --assume)
    sec_to "$report" check "$1" "$2" "${words[@]}" --reset "${given[@]}" || status=$?
  fi
}
