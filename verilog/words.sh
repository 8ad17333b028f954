# shellcheck shell=bash disable=SC2034
# The words of sec-verilog. Read by it.
old=() new=() check=() parameters=() reading=() defines=() values=('') reset_inputs=() cells=() liberties=() boxes=()
side=old cycles=20 top='' new_top='' sv='' keep='' map='' seconds='' jobs='' solver='' box_memories='' is_clocked='' wrong='' any_clock='' any_start=''

# What is wrong first is told: complain WHY
complain() {
  wrong=${wrong:-$1}
}

# The word behind an option: value OPTION LEFT WORD
value() {
  [ "$2" -ge 2 ] || complain "$1 wants a word behind it"
  case $3 in
    *$'\n'*) complain "a word with a line break: $3" ;;
  esac
}

# A word of sec check, or what belongs to one, or else a file.
other() {
  local last=${check[*]: -1}
  case $1,$last in
    *$'\n'*) complain "a word with a line break: $1" ;;
    -* | *,--mode | *,--conflicts | *,--cycles | *,--assume | *,--pair)
      [ -n "$top" ] || complain "no such option, or a word of sec check before --top TOP: $1"
      check+=("$1")
      ;;
    *) if [ "$side" = old ]; then old+=("$1"); else new+=("$1"); fi ;;
  esac
}

read_words() {
  while [ $# -gt 0 ]; do
    case $1 in
      --help | -h)
        usage
        exit 0
        ;;
      --top | --new-top | --keep | --map | --seconds | --jobs | --solver | --box | --box-memories | --reset-input | --cells | --liberty | -P | -D | -I) value "$1" $# "${2:-}" ;;
    esac
    case $1 in
      --top) top=${2:-} && shift ;;
      --new-top) new_top=${2:-} && shift ;;
      --keep) keep=${2:-} && shift ;;
      --map) map=${2:-} && shift ;;
      --seconds) seconds=${2:-} && shift ;;
      --jobs) jobs=${2:-} && shift ;;
      --solver) solver=${2:-} && shift ;;
      --box) boxes+=("${2:-}") && shift ;;
      --box-memories) box_memories=${2:-} && shift ;;
      --reset-input) reset_inputs+=("${2:-}") && shift ;;
      --cells) cells+=("${2:-}") && shift ;;
      --liberty) liberties+=("${2:-}") && shift ;;
      -P) parameters+=("${2:-}") && shift ;;
      -D) defines+=("${2:-}") && shift ;;
      -I) reading+=("-I${2:-}") && shift ;;
      -P?*) parameters+=("${1#-P}") ;;
      -D?*) defines+=("${1#-D}") ;;
      -I?*) reading+=("$1") ;;
      -sv) sv=-sv ;;
      --clocks) is_clocked=yes ;;
      --any-clock) any_clock=yes ;;
      --any-start) any_start=yes ;;
      --x-differs) values=(0 1) ;;
      --)
        [ "$side" = old ] || complain "-- stands twice"
        side=new
        ;;
      *) other "$1" ;;
    esac
    [ $# -eq 0 ] || shift
  done
}

# What is wrong with the words together.
look_at_words() {
  local it
  if [ "${#old[@]}" -eq 0 ] || [ "${#new[@]}" -eq 0 ]; then
    complain "files of two designs are wanted, parted by --"
  fi
  [ -n "$top" ] || complain "--top TOP is wanted"
  for it in "${parameters[@]}"; do
    case $it in
      ?*=*) ;;
      *) complain "-P wants NAME=VALUE, and not $it" ;;
    esac
  done
  for it in "${reset_inputs[@]}"; do
    case $it in
      -* | '' | *' '* | =*) complain "--reset-input wants an input, or NAME=0 or NAME=1, and not $it" ;;
      *=[01]) ;;
      *=*) complain "--reset-input wants 0 or 1 behind the =, and not $it" ;;
    esac
  done
  case "$any_start ${check[*]} " in
    'yes '*'--reset '*) complain "--any-start and --reset are two questions" ;;
  esac
  case $seconds in
    *[!0-9]* | 0* | ????????*) complain "--seconds wants a number from 1 on, and not $seconds" ;;
  esac
  case $jobs in
    *[!0-9]* | 0* | ?????*) complain "--jobs wants a number from 1 on, and not $jobs" ;;
  esac
  case $solver in
    '' | cadical | kissat) ;;
    *) complain "--solver wants cadical or kissat, and not $solver" ;;
  esac
  case $box_memories in
    *[!0-9]* | ????????????*) complain "--box-memories wants a number of bits, and not $box_memories" ;;
  esac
  for it in "${boxes[@]}"; do
    case $it in
      *[!A-Za-z0-9_]* | '') complain "--box wants the name of a module or of an instance, and not $it" ;;
    esac
  done
  for it in "${cells[@]}" "${liberties[@]}"; do
    case $it in
      -* | '') complain "--cells and --liberty want a file, and not $it" ;;
    esac
  done
  for it in "${reading[@]#-I}" "$keep"; do
    case $it in
      -*) keep='' && complain "no folder: $it" ;;
    esac
  done
}

# Without --reset a number of cycles is that of the searches for a difference, and not a word of check.
take_cycles() {
  local it last='' kept=()
  case " ${check[*]} " in
    *' --reset '*) return ;;
  esac
  for it in "${check[@]}"; do
    case $it,$last in
      --cycles,*) ;;
      --cycles=*) cycles=${it#*=} ;;
      *,--cycles) cycles=$it ;;
      *) kept+=("$it") ;;
    esac
    last=$it
  done
  [ "$last" != --cycles ] || complain "--cycles wants a word behind it"
  case $cycles in
    '' | *[!0-9]* | ?????*) complain "--cycles wants a number from 0 to 1000, and not $cycles" ;;
    *) [ "$cycles" -le 1000 ] || complain "--cycles wants a number from 0 to 1000, and not $cycles" ;;
  esac
  check=("${kept[@]}")
}

# Some options of check with the words behind them, a line each: valued OPTION..
valued() {
  local it option last=''
  for it in "${check[@]}"; do
    for option in "$@"; do
      case $it,$last in
        "$option,"* | "$option="* | *",$option") printf '%s\n' "$it" ;;
      esac
    done
    last=$it
  done
}
