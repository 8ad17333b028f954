# shellcheck shell=bash disable=SC2154
# The answers of a run, and how they are told. Read by sec-verilog.
statuses=() reports=() files=() pairs=() starts=()
clocks='' exposed='' settled=''

# One answer more. What is refused, or can't be read or written, is the end.
answered() {
  statuses+=("$status") reports+=("$report") files+=("$a" "$b") pairs+=("$number")
  tell_alone
  case $status in
    0 | 1 | 2 | 3 | 9) ;;
    *) finish ;;
  esac
}

# From where a pair of files was compared, and what the answer rests on: told_of START
told_of() {
  echo "start: $1"
  [ -z "$exposed" ] || echo "states: $exposed"
  [ -z "$settled" ] || echo "settled: $settled"
}

# What was taken for granted of the pair of files with a number, a line each, six at most.
notes() {
  local it
  [ -z "${starts[$1]}" ] || echo "${starts[$1]}"
  it=$(sum_of timeless)
  if [ -n "$is_clocked" ]; then
    echo "clock: clocks are inputs (--clocks); a cycle is a step of time, and flip-flops load where their clock changes"
  elif [ -n "$clocks" ]; then
    echo "$clocks"
  elif [ "$it" -gt 0 ]; then
    echo "clock: $it flip-flops have none, and count as loaded by the clock of the others"
  fi
  it=$(facts "$old_name" box | awk 'NF == 2 { print $1 }' | sort -u | paste -s -d ' ')
  # shellcheck disable=SC2086
  [ -z "$it" ] || echo "boxes: $(some $it): their pins are compared; boxes of one name are taken to do and to hold the same"
  it=$(of_both undriven)
  [ -z "$it" ] || echo "undriven: nets that something reads count as inputs undriven:NET: $it"
  it=$(of_both x)
  if [ -n "$it" ]; then
    if [ "${#values[@]}" -eq 1 ]; then it+='; each may be 0 or 1, as Yosys chose (--x-differs tries both)'; else it+='; taken as 0, and as 1'; fi
    echo "x: assigned $it"
  fi
}

# The number of the answer that makes the status: a difference, or else the first that isn't equal.
deciding() {
  local index found=0
  for index in "${!statuses[@]}"; do
    case ${statuses[found]},${statuses[index]} in
      1,*) ;;
      *,1 | 0,*) found=$index ;;
    esac
  done
  echo "$found"
}

# Tells what the pair of a verdict depends on in both files, and keeps it: tell_cone REPORT OLD NEW
tell_cone() {
  local pair name is_next='' exposed side file told=() only
  pair=$(sed -n 's/^verdict different \([^ ]*\) .*/\1/p; s/^verdict not-shown \(cut\|events\) \(next [^ ]*\|[^ ]*\) .*/\2/p; s/^verdict limit \(next [^ ]*\|[^ ]*\) conflicts .*/\1/p' "$1" | tail -n 1)
  case $pair in
    '' | recover | class | assume | blocks) return 0 ;;
    'next '*) is_next=1 ;;
  esac
  name=${pair#next } exposed=$(sed -n 's/^exposed [0-9]* //p' "$1" | tail -n 1)
  for side in old new; do
    file=$2
    [ "$side" = old ] || file=$3
    NAME=$name EXPOSED=$exposed awk -v is_next="$is_next" -f "$parts/cone.awk" -- "$file" > "$scratch/cone.$side" || exit 73
    told+=("$(awk '{ if ($1 == "gates") gates = $2; else count[$1]++ } END { print count["input"] + 0 " inputs, " count["flip-flop"] + 0 " flip-flops, " gates " gates" }' "$scratch/cone.$side")")
  done
  {
    grep -v '^gates ' "$scratch/cone.old" | sed 's/^/old /'
    grep -v '^gates ' "$scratch/cone.new" | sed 's/^/new /'
  } > "$folder/cone"
  if [ "${told[0]}" = "${told[1]}" ]; then told=("old and new ${told[0]}"); else told=("old ${told[0]}; new ${told[1]}"); fi
  for side in old new; do
    only=$(comm "$([ "$side" = old ] && echo -23 || echo -13)" <(grep -v '^gates ' "$scratch/cone.old" | sort) <(grep -v '^gates ' "$scratch/cone.new" | sort) | sed 's/^input //; s/^flip-flop //')
    # shellcheck disable=SC2086
    [ -z "$only" ] || told[0]+="; in $side alone $(some $only)"
  done
  say "$pair depends on: ${told[0]}"
}

# The report of a frame with the run that it is as its verdict, as sec-waves draws it: as_run REPORT REPLAYED
as_run() {
  local name line
  name=$(sed -n 's/^verdict not-shown events \([^ ]*\) values .*/\1/p' "$1" | tail -n 1)
  line=$(NAME=$name awk '$1 == "cycle" && $3 == "pair" && $4 == ENVIRON["NAME"] { told = "verdict different " $4 " cycle " $2 " values " $6 " " $7 } END { print told }' "$2")
  [ -n "$line" ] || return 1
  sed -n '/^inputs [0-9]*$/p; /^latches /p; /^classes /p' "$1"
  echo "$line"
  cat "$folder/rows"
}

# Draws what a report shows, and makes a sequence shorter, where there is a folder for it: draw REPORT OLD NEW OF_STATUS
draw() {
  local told=$1
  grep -q '^verdict different\|^verdict not-shown \(cut\|events\)' "$told" || return 0
  if [ -z "$keep" ]; then
    say "with --keep FOLDER the counterexample is drawn as waves, and made shorter"
    return 0
  fi
  if [ "$told" != "$4" ]; then
    as_run "$told" "$4" > "$scratch/as_run" && told=$scratch/as_run
  elif grep -q '^verdict different' "$told" && shorten "$told" "$2" "$3"; then
    say "$folder/rows: $(sed 's/^sec-shorten: //' "$scratch/shortened")"
  fi
  if command -v python3 >/dev/null; then
    "$here/sec-waves" "$told" "$2" "$3" -o "$folder/waves.vcd"
  fi
}

# Prints the reports, that of the status last, and what was taken for granted behind them, and ends.
finish() {
  local index decides
  decides=$(deciding)
  {
    for index in "${!statuses[@]}"; do
      [ "$index" -eq "$decides" ] || cat "${reports[index]}"
    done
    cat "${reports[decides]}"
  } > "$folder/report" || exit 73
  notes "${pairs[decides]}" > "$folder/notes" || exit 73
  cat "$folder/report" || exit 7
  case ${statuses[decides]} in
    4 | 9) tell_next "$(head -n 1 "${reports[decides]}")" ;;
  esac
  sed 's/^/sec-verilog: /' "$folder/notes" >&2
  case ${statuses[decides]} in
    [123]) tell_cone "$(shown_report "$decides")" "${files[2 * decides]}" "${files[2 * decides + 1]}" ;;
  esac
  draw "$(shown_report "$decides")" "${files[2 * decides]}" "${files[2 * decides + 1]}" "${reports[decides]}"
  exit "${statuses[decides]}"
}

# Behind a refusal, what may be done next; of ports and names tell_alone has told it.
tell_next() {
  local it file=$a
  case $1 in
    'refused B '*) file=$b ;;
    'refused Interface '* | 'unpaired '*) return 0 ;;
  esac
  hint "$1" " ${check[*]} " "$a" "$b" "$file" | while IFS= read -r it; do say "$it"; done
}

# The report that has what is shown: behind a frame that is a run the report of replay has no verdict, and the frame's is the one before.
shown_report() {
  if grep -q '^verdict' "${reports[$1]}" || [ "$1" -eq 0 ]; then echo "${reports[$1]}"; else echo "${reports[$1 - 1]}"; fi
}

# Tells of flip-flops that the last answer rests on.
look_at_exposed() {
  local count
  count=$(sed -n 's/^exposed \([0-9]*\).*/\1/p' "$report")
  if [ "${count:-0}" -gt 0 ]; then
    exposed="the exposed flip-flops ($count) are taken to be equal at first; whether they become so isn't asked"
  fi
  case $status,${check[*]} in
    9,* | *--expose*) tell_made_names ;;
  esac
}

# Whether sec-shorten makes a sequence for the pair of a report, for 30 seconds at most; what it says goes to a file: shorten REPORT OLD NEW
shorten() {
  local words=() bound=()
  command -v python3 >/dev/null || return 1
  ! command -v timeout >/dev/null || bound=(timeout 30)
  mapfile -t words < <(valued --assume | sed -n 's/^--assume=//p; /^--assume$/{ n; p; }' | tail -n 1 | sed '1i--assume')
  ! grep -q '^assume ' "$1" && words=()
  # The rows of a reset stay in front, and not those that random runs put behind them.
  ! grep -q '^after ' "$1" || words+=(--front 8)
  "${bound[@]}" "$here/sec-shorten" "$1" "$2" "$3" -o "$folder/rows" "${words[@]}" 2> "$scratch/shortened"
  [ $? -eq 1 ] && [ -s "$folder/rows" ]
}

# A frame that is a run is a difference: the frame's report is an answer then, and that of replay the next one.
look_at_frame() {
  ran=''
  grep -q '^verdict not-shown events' "$report" || return 0
  shorten "$report" "$a" "$b" || return 0
  sec_to "$scratch/run.$number" replay "$a" "$b" "$folder/rows" --mode event
  [ $? -eq 1 ] || return 0
  answered
  report=$scratch/run.$number status=1
  ran="its frame is a run over which $(sed 's/^sec-shorten: //' "$scratch/shortened")"
}

# Asks from the initial values behind an answer from any power-up, and sets `start` to both.
and_from_initial_values() {
  started "$a" "$scratch/old.$number.blif"
  started "$b" "$scratch/new.$number.blif"
  from_initial_values "$scratch/old.$number.blif" "$scratch/new.$number.blif"
  start="$from from any power-up, where outputs are settled$behind; $(answer_of "$report") from the initial values, by $way"
  [ "$(sum_of free)" -eq 0 ] || start+=", with the $(sum_of free) flip-flops at 0 that have none"
}

# Asks what is to be asked of two designs.
compare() {
  local start from ran='' behind=''
  a=$folder/$old_name.blif b=$folder/$new_name.blif exposed='' settled=''
  if [ -n "$is_reset" ]; then
    from_initial_values "$a" "$b"
    start="from the initial values, by $way"
    [ "$(sum_of free)" -eq 0 ] || start+="; the $(sum_of free) flip-flops that have none begin with 0 or 1, each by itself"
  else
    from_any_power_up
    look_at_simplest
    from=$(answer_of "$report")
    look_at_frame
    [ -z "$ran" ] || from="different ($ran)"
    look_at_exposed
    [ "$status" -ne 0 ] || look_at_settling
    behind_a_reset
    start="${behind:+$from }from any power-up, where outputs are settled$behind"
    [ -z "$ran" ] || start="different, as $ran"
    if [ "$(sum_of started)" -eq 0 ]; then
      start+='; no flip-flop has an initial value'
    elif [ -n "$any_start" ]; then
      start+="; the $(sum_of started) initial values don't count (--any-start)"
    else
      answered
      and_from_initial_values
    fi
  fi
  if [ -n "$behind" ] || grep -q '^verdict' "${reports[@]}" "$report"; then starts[number]=$(told_of "$start"); fi
  answered
}
