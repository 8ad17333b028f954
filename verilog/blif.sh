# shellcheck shell=bash disable=SC2154,SC2034
# From Verilog to BLIF by Yosys, and what the files say. Read by sec-verilog.

# What earlier runs left in the folder of --keep goes, and nothing else does.
clear_folder() {
  local name
  [ -d "$keep" ] || return 0
  for name in {old,new}{,.x0,.x1}.{blif,tcl,log,facts} resets.v assume.blif report rows notes cone waves.vcd waves.gtkw; do
    rm -f "$keep/$name"
  done
}

# The folder of this run's files, which is that of --keep, or one that goes with this script.
open_folder() {
  local other
  scratch=$(mktemp -d) || exit 73
  trap 'rm -rf "$scratch"' EXIT
  folder=${keep:-$scratch/files}
  mkdir -p "$folder" || stop 73 "the folder $folder can't be made"
  clear_folder
  other=$(find "$folder/" -mindepth 1 -print -quit)
  [ -z "$other" ] || stop 73 "$other isn't of sec-verilog: --keep wants a folder that is new or empty, or that of an earlier run"
}

# One word as Tcl reads it.
quoted() {
  printf '%s' "$1" | sed 's/[] "$;{}\\[]/\\&/g'
}

# What Yosys is told of one design: script NAME TOP X FILE..
script() {
  local name=$1 top=$2 x=$3 file it
  shift 3
  for file in "${cells[@]}"; do echo "yosys read_verilog -defer $(quoted "$file")"; done
  for file in "${liberties[@]}"; do
    echo "yosys read_liberty -ignore_miss_func -ignore_miss_dir -ignore_miss_data_latch $(quoted "$file")"
  done
  for file in "$@"; do
    printf 'yosys read_verilog'
    case $file in
      *.sv | *.svh) printf ' -sv' ;;
      *) printf '%s' "${sv:+ $sv}" ;;
    esac
    for it in "${defines[@]}"; do printf ' %s' "$(quoted "-D$it")"; done
    for it in "${reading[@]}"; do printf ' %s' "$(quoted "$it")"; done
    printf ' %s\n' "$(quoted "$file")"
  done
  for it in "${parameters[@]}"; do
    echo "yosys chparam -set $(quoted "${it%%=*}") $(quoted "${it#*=}") $(quoted "$top")"
  done
  echo "set top $(quoted "$top")"
  echo "set x {$x}"
  echo "set clocks {$is_clocked}"
  printf 'set boxes [list'
  for it in "${boxes[@]}"; do printf ' %s' "$(quoted "$it")"; done
  printf ']\nset box_memories {%s}\nset flops %s\nset slow 8192\nset side {%s}\n' "$box_memories" "$most_flops" "${name%.x?}"
  echo "set scratch $(quoted "$scratch/yosys")"
  for it in resets.v blif:"$name.blif" facts:"$name.facts"; do
    echo "set ${it%%[.:]*} $(quoted "$folder/${it#*:}")"
  done
  cat "$parts/to_blif.tcl"
}

# An assumption in Verilog is brought to BLIF, and this file is the word of check. Its top module is the one that no other has as a part.
take_assumption() {
  local at it sv=''
  for at in "${!check[@]}"; do
    it=${check[at]}
    case $it in
      --assume=*.v | --assume=*.sv) it=${it#*=} ;;
      *.v | *.sv) [ "$at" -gt 0 ] && [ "${check[at - 1]}" = --assume ] || continue ;;
      *) continue ;;
    esac
    [ "${it##*.}" != sv ] || sv=' -sv'
    {
      echo "yosys read_verilog$sv $(quoted "$it")"
      echo 'yosys hierarchy -check -auto-top'
      echo 'yosys synth -flatten'
      echo 'yosys opt_clean -purge'
      echo "yosys write_blif -noalias $(quoted "$folder/assume.blif")"
    } > "$scratch/assume.tcl"
    if ! yosys -Q -T -c "$scratch/assume.tcl" > "$scratch/assume.log" 2>&1 < /dev/null || [ ! -s "$folder/assume.blif" ]; then
      grep '^ERROR\|: ERROR' "$scratch/assume.log" | grep -v 'TCL interpreter' >&2
      stop 65 "yosys refuses the assumption $it"
    fi
    if [ "$it" = "${check[at]}" ]; then check[at]=$folder/assume.blif; else check[at]=--assume=$folder/assume.blif; fi
  done
}

# What the flip-flops of a BLIF file say: each clock with its edge, and how many have no clock, an initial value, or none.
latches() {
  awk '
    $1 != ".latch" { next }
    NF > 4 && $5 != "NIL" { clocks["the " ($4 == "re" ? "rising" : "falling") " edge of " $5] }
    NF <= 4 || $5 == "NIL" { timeless++ }
    { if (NF % 2 == 0 && $NF ~ /^[01]$/) started++; else free++ }
    END {
      for (it in clocks) print "clock " it
      print "timeless " timeless + 0
      print "started " started + 0
      print "free " free + 0
    }' "$1"
}

# The most flip-flops that a memory may become.
most_flops=500000

# A box's clock is none of the outputs that are compared; which clock it has is a fact: hide_box_clocks FILE
hide_box_clocks() {
  awk -v facts="$1.facts" '
    FILENAME == facts { if ($1 == "box" && NF == 3) cells[$2] = 1; next }
    FNR == 1 { file++ }
    file == 1 { if ($1 == ".latch" && NF > 4) is_clock[$5] = 1; if (pending && $1 == "1" && $2 == "1") of[buffer] = source; pending = $1 == ".names" && NF == 3; source = $2; buffer = $3; next }
    function is_pin(name,   cell) {
      for (cell in cells) if (index(name, cell ".") == 1) return 1
      return 0
    }
    $1 == ".outputs" || more {
      line = more ? "" : ".outputs"
      for (at = more ? 1 : 2; at <= NF; at++) {
        root = $at in of ? of[$at] : $at
        if ($at != "\\" && is_pin($at) && (root in is_clock || $at ~ /[.](RD|WR)_CLK(\[[0-9]+\])?$/)) { hidden[$at] = 1; print "box " $at " clock " root >> facts }
        else line = line " " $at
      }
      more = $NF == "\\"
      print line
      next
    }
    $1 == ".names" && NF == 3 && $3 in hidden { skipped = 1; next }
    $1 ~ /^[.]/ { skipped = 0 }
    !skipped { print }' "$1.facts" "$1.blif" "$1.blif" > "$scratch/hidden" || exit 73
  cp "$scratch/hidden" "$1.blif" || exit 73
}

# Boxes of both designs that aren't alike.
look_at_boxes() {
  local left right
  left=$(facts "$old_name" box | sort) right=$(facts "$new_name" box | sort)
  [ "$left" != "$right" ] || return 0
  stop 4 "refused: boxes aren't alike in both designs: $(diff <(echo "$left") <(echo "$right") | sed -n 's/^< /in old /p; s/^> /in new /p' | cut -c 1-120 | head -n 4 | paste -s -d ';' | sed 's/;/; /g')"
}

# Runs Yosys on one design, and tells what it warns of: by_yosys NAME TOP X FILE..
by_yosys() {
  local name=$1 at=$folder/$1 side=${1%.x?} is_large status
  script "$@" > "$at.tcl" || exit 73
  ticking "yosys on the $side design"
  yosys -Q -T -c "$at.tcl" 3>&2 > "$at.log" 2>&1 < /dev/null &
  awaited $!
  status=$?
  ticked
  [ "$status" -lt 128 ] || interrupted "$status" /dev/null
  if [ "$status" -ne 0 ] || [ ! -s "$at.blif" ]; then
    is_large=$(sed -n 's/^large //p' "$at.facts" 2>/dev/null)
    [ -z "$is_large" ] || stop 4 "refused: in the $side design memory $is_large flip-flops, above $most_flops; --box-memories N makes memories above N bits boxes"
    grep -h -B 1 '^ERROR\|: ERROR' "$at.log" | grep -v '^--$\|^$\|TCL interpreter' >&2 || tail -n 5 "$at.log" >&2
    rm -f "$at.blif" "$at.facts"
    if [ -z "$sv" ] && grep -q "ERROR: syntax error\|resolve task name .*assert\|resolve task name .*assume" "$at.log"; then
      say "a file is read as SystemVerilog with -sv, or where its name ends with .sv"
    fi
    stop 65 "yosys refuses the $side design"
  fi
  mv "$scratch/yosys.names" "$scratch/$name.names" || exit 73
  ! grep -q '^box ' "$at.facts" || hide_box_clocks "$at"
  # What a selection doesn't find is no news, and what has no driver is told behind the report.
  grep -h '^Warning' "$at.log" | grep -v 'did not match any\|is used but has no driver' | awk '!seen[$0]++' | sed "s/^/sec-verilog: $side: /" >&2
  sed -n "s/^twice \(.*\)/sec-verilog: $side: \1 is assigned twice/p; s/^formal \([1-9][0-9]*\)/sec-verilog: $side: \1 assertions, assumptions and the like aren't looked at/p" "$at.facts" >&2
  if grep -q '^Replacing .*([$]_\(DLATCH\|SR\|ALDFF\|DFFSR\)' "$at.log"; then
    say "$side: latches, or asynchronous loads, are compared at the clock's edges alone"
  elif [ -z "$is_clocked" ] && grep -q '^Using template .*reset_[PN][PN][01]' "$at.log"; then
    say "$side: asynchronous resets are compared at the clock's edges alone; --clocks lets them work at once"
  fi
}

# Brings one design to BLIF: to_blif NAME TOP X FILE.. One file that is BLIF stays as it is.
to_blif() {
  case $#,$4 in
    4,*.blif)
      cp "$4" "$folder/$1.blif" || stop 6 "$4 can't be read"
      : > "$folder/$1.facts"
      : > "$scratch/$1.names"
      ;;
    *) by_yosys "$@" ;;
  esac
  latches "$folder/$1.blif" >> "$folder/$1.facts" || exit 73
}

# The values of a fact of one design, a line each: facts NAME WORD
facts() {
  sed -n "s/^$2 //p" "$folder/$1.facts"
}

# The values of a number of both designs together.
sum_of() {
  echo $(($(facts "$old_name" "$1") + $(facts "$new_name" "$1")))
}

# Some of many words, and how many there are besides.
some() {
  if [ $# -le 4 ]; then echo "$*"; else echo "$1 $2 $3 and $(($# - 3)) more"; fi
}

# What both designs say of one fact, nothing where neither says any.
of_both() {
  local left right
  mapfile -t left < <(facts "$old_name" "$1")
  mapfile -t right < <(facts "$new_name" "$1")
  if [ "${#left[@]}" -gt 0 ]; then
    printf 'in old %s' "$(some "${left[@]}")"
    [ "${#right[@]}" -eq 0 ] || printf '; '
  fi
  [ "${#right[@]}" -eq 0 ] || printf 'in new %s' "$(some "${right[@]}")"
}

# Two clocks, or edges, of one design sec refuses by itself. Those of two designs it takes for one.
look_at_clocks() {
  local left right
  left=$(facts "$old_name" clock) right=$(facts "$new_name" clock)
  case $left$'\n'$right in
    $'\n'* | *$'\n' | *$'\n'*$'\n'*) return ;;
  esac
  [ "$left" != "$right" ] || return 0
  if [ -z "$any_clock" ]; then
    stop 4 "refused: flip-flops load at $left in the old design, and at $right in the new one; --any-clock compares them all the same"
  fi
  clocks="clock: $left in old counts as $right in new (--any-clock)"
}

# With --expose flip-flops are paired by names, and a name that Yosys made says nothing.
tell_made_names() {
  local name count
  for name in "$old_name" "$new_name"; do
    count=$(awk '$1 == ".latch" && $3 ~ /^\$/ { count++ } END { print count + 0 }' "$folder/$name.blif")
    [ "$count" -eq 0 ] || say "${name%.x?}: $count flip-flops have names that Yosys made; those can't be paired"
  done
}
