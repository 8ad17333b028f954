# shellcheck shell=bash
# What may be done next behind a refusal, in a line or two. Read by sec and sec-verilog.

# The inputs, or the outputs, of the first model of a BLIF file that another one lacks: lacks WORD FILE OTHER
lacks() {
  awk -v word="$1" '
    FNR == 1 { file++; models = 0; more = 0 }
    $1 == ".model" { models++ }
    models < 2 && ($1 == word || more) {
      for (at = more ? 1 : 2; at <= NF; at++) if ($at != "\\") { if (file == 1) is_there[$at] = 1; else if (!($at in is_there)) print $at }
      more = $NF == "\\"
      next
    }
    { more = 0 }' "$3" "$2" | head -n 8 | paste -s -d ' '
}

# What one of two files has alone, for each kind of port.
hint_of_ports() {
  local told='' it kind
  for kind in inputs outputs; do
    it=$(lacks ".$kind" "$1" "$2")
    [ -z "$it" ] || told+="; $1 alone has $kind $it"
    it=$(lacks ".$kind" "$2" "$1")
    [ -z "$it" ] || told+="; $2 alone has $kind $it"
  done
  echo "ports are paired by name${told:-, but for clocks}"
}

# How many flip-flops of one file have a name that the other has, and one that hasn't.
hint_of_names() {
  awk '$1 == ".latch" { if (NR == FNR) there[$3] = 1; else { all++; if ($3 in there) both++; else if (alone == "") alone = $3 } }
    END { print both + 0 " of " all + 0 " flip-flops of the second file have a name that the first has" (alone == "" ? "" : ", " alone " has none") }' "$1" "$2"
}

# How many flip-flops of a file begin with neither 0 nor 1.
without_start() {
  awk '$1 == ".latch" && (NF % 2 || $NF !~ /^[01]$/) { count++ } END { print count + 0 }' "$1"
}

# Whether a file looks like Verilog.
is_verilog() {
  [ -f "$1" ] && grep -q '^ *module[ \t]' "$1"
}

# Whether both files are BLIF, as far as their names of flip-flops and ports are asked for.
are_blif() {
  [ -f "$1" ] && [ -f "$2" ] && ! head -c 4 "$1" | grep -q '^a[ai]g ' && ! head -c 4 "$2" | grep -q '^a[ai]g '
}

# Prints what may be done behind the line of a report: hint LINE COMMAND-AND-OPTIONS A B FILE, where FILE is that which the line names by its letter.
hint() {
  local line=$1 words=$2 a=$3 b=$4 file=$5
  case $line in
    'refused '?' line '*' NoModel')
      if is_verilog "$file"; then
        echo "$file is Verilog: sec-verilog compares designs in Verilog, and takes an assumption in it; Yosys brings it to BLIF"
      else
        echo "$file is no BLIF file, or its .model is missing"
      fi
      ;;
    'refused Interface '*) ! are_blif "$a" "$b" || hint_of_ports "$a" "$b" ;;
    'cyclic '*)
      case $words in
        *' --reset '*) echo "there is feedback: sec induct asks this from the initial values, and --reset --cycles N the first N cycles" ;;
        *' event '* | *'=event '*) echo "there is feedback besides that of load enables: --expose beside --mode event cuts it open at flip-flops of one name" ;;
        *) echo "there is feedback: --expose cuts it open at flip-flops of one name, --mode event is for load enables; from the initial values sec induct asks it" ;;
      esac
      ;;
    'unpaired '*)
      ! are_blif "$a" "$b" || hint_of_names "$a" "$b"
      echo "--pairs FILE tells by lines 'NAME_IN_A NAME_IN_B' which is which; sec-verilog A.blif -- B.blif --top T lists those without a partner, and takes a --map; --mode event wants no names of load enables, sec induct none at all"
      ;;
    'refused P line '*' Unknown '?) echo "$file: sec graph prints the names of the flip-flops of a circuit" ;;
    'refused P line '*' Taken') echo "$file: the other flip-flop of that name wants a line too, as in an exchange, a b and b a" ;;
    'refused '?' TwoClocks '* | 'refused '?' TwoEdges '* | 'refused '?' GatedClock '* | 'refused '?' ClockRead '*)
      echo "sec-verilog --clocks compares designs with several clocks, both edges, gates before clocks, or a clock that is read"
      ;;
    'refused '?' UnknownModel $mem'*) echo "a memory that Yosys doesn't map, as one that several clocks write: sec-verilog --box-memories 0 compares its pins, with --clocks where there are several" ;;
    'refused '?' UnknownModel '*) echo "a cell or a box: sec-verilog --cells or --liberty reads the models of cells, --box NAME leaves a box closed" ;;
    'refused '?' line '*' Unsupported .gate') echo "a mapped network: unmap in ABC before write_blif, or sec-verilog --liberty" ;;
    'refused '?' Undriven '*) echo "write_blif -noalias in Yosys writes no buffers of names that have lost their driver" ;;
    'refused '?' TooLarge' | 'refused TooManyEvents' | 'refused '?' TooLong')
      echo "sec-pairs compares each output by itself, which may fit; docs/GUIDE.md has the limits"
      ;;
    refused*) echo "docs/GUIDE.md, under Refusals, says what to do" ;;
  esac
}
