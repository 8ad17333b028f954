# What sec-verilog tells Yosys of a design, behind the lines that read its files and set `top`, `blif`, `facts`, `resets`,
# `scratch`, `x`, `clocks`, `boxes`, `box_memories`, `side` and `flops`, the most bits that a memory may have; above `slow` bits it is told.
# It writes the design to the file `blif`, and to `facts` what it takes for granted: a line `x PLACE` for each place of the Verilog that
# gives x or z, `twice NET` for a net that is assigned twice, `formal COUNT` of assertions and the like, which are left out, a line `undriven NET` for each bit that something reads and nothing drives, and lines `box CELL ..` for each cell that is a box.
# Of a memory that is too large it writes `large ..` alone, and ends.

# The lines of a text file.
proc lines_of {path} {
  set file [open $path]
  set text [read $file]
  close $file
  return [split $text \n]
}

# The lines in which the range `FILE:LINE.COLUMN-LINE.COLUMN` of a statement has an x or a z written.
proc written_in {range} {
  set found {}
  if {[regexp {^(.*):(\d+)\.\d+-(\d+)\.\d+$} $range -> path first last]} {
    catch {
      foreach line [lrange [lines_of $path] $first-1 $last-1] {
        if {[regexp -nocase {'s?[bodh]?[0-9a-f_]*[xz]} [regsub {//.*} $line ""]]} { lappend found $path:$first }
        incr first
      }
    }
  }
  return $found
}

# Whether Yosys made a net by itself, of what isn't written to a memory, or of a signal whose bits are assigned one by one.
proc is_made {net} {
  return [regexp {\$(memwr|bitselwrite|lookahead)} $net]
}

# The cells of a flat design without processes that give x: for each its name, its ranges in the Verilog, parted by `|`, and whether it only
# feeds nets that Yosys made.
proc cells_with_x {scratch} {
  yosys tee -q -o $scratch dump
  set cell ""
  set src ""
  set found {}
  set made {}
  foreach line [lines_of $scratch] {
    if {[regexp {^ *attribute \\src "(.*)"$} $line -> src]} continue
    if {[regexp {^  cell (\S+) (\S+)$} $line -> kind cell]} {
      array set pins {{\A} "" {\B} "" {\D} "" {\S} "" {\Y} "" {\Q} ""}
      set at $src
    } elseif {$cell ne "" && [regexp {^    connect (\S+) (.*)$} $line -> pin signal]} {
      set pins($pin) $signal
    } elseif {$line eq "  end" && $cell ne ""} {
      set net $pins(\\Y)$pins(\\Q)
      set read "$pins(\\A) $pins(\\B) $pins(\\D) $pins(\\S)"
      if {$kind in {{$mux} {$pmux}}} { set reads($net) $read }
      # A comparison with x, as of `===`, assigns none.
      if {[regexp {\d'[01xz]*[xz]} $read] && $kind ni {{$eqx} {$nex}}} { lappend found $cell $at $net }
      set cell ""
    } elseif {[regexp {^  connect (.*) (\S+)$} $line -> net signal] && [is_made $net]} {
      lappend made $signal
    }
  }
  # What a multiplexer before such a net reads feeds it as well.
  for {set at 0} {$at < [llength $made]} {incr at} {
    set net [lindex $made $at]
    if {[info exists feeds($net)]} continue
    set feeds($net) 1
    if {[info exists reads($net)]} { lappend made {*}[regexp -all -inline {\S+_Y} $reads($net)] }
  }
  set cells {}
  foreach {cell at net} $found {
    lappend cells $cell $at [expr {[is_made $net] || [info exists feeds($net)]}]
  }
  return $cells
}

# The places at which cells that are still there give x: where an x is written, and the whole range of a cell that has none written, since
# what is assigned in some cases alone is x in the others.
proc places_of {cells scratch} {
  yosys tee -q -o $scratch select -list t:*
  foreach line [lines_of $scratch] { set is_there([lindex [split $line /] end]) 1 }
  set found {}
  foreach {cell ranges is_made} $cells {
    if {![info exists is_there([lindex [split [string trimleft $cell \\] /] end])]} continue
    set written {}
    foreach range [split $ranges |] {
      lappend written {*}[written_in $range]
      set whole [regsub {:(\d+)\.\d+-(\d+)\.\d+$} $range {:\1-\2}]
    }
    if {$written eq "" && !$is_made} { lappend found [regsub {:(\d+)-\1$} $whole {:\1}] }
    lappend found {*}$written
  }
  return [lsort -dictionary -unique $found]
}

# Each bit that is read and that nothing drives becomes an input of its own, `undriven:NET`, so that no tool chooses its value.
# Returns the names of these bits.
proc expose_undriven {scratch} {
  yosys tee -q -o $scratch check
  set nets {}
  foreach line [lines_of $scratch] {
    # TOP.\NET, or TOP.\NET [BIT]
    if {[regexp {^Warning: Wire .*?\.([\\$].*) is used but has no driver} $line -> net]} {
      lappend nets [string map {" " ""} $net]
    }
  }
  set names {}
  foreach net [lsort -dictionary $nets] {
    set name [string trimleft $net \\]
    yosys add -input undriven:$name 1
    yosys connect -set $net undriven:$name
    lappend names $name
  }
  return $names
}

# The nets of a design without processes that are assigned twice as they stand, which Yosys makes one with what is assigned to them.
proc assigned_twice {scratch} {
  yosys tee -q -o $scratch dump
  set found {}
  foreach line [lines_of $scratch] {
    if {![regexp {^  connect (\\\S+(?: \[[\d:]+\])?) } $line -> net]} continue
    if {[incr count($net)] == 2} { lappend found [string map {" " ""} [string trimleft $net \\]] }
  }
  return $found
}

# How many cells there are of some selections.
proc count_of {scratch args} {
  yosys tee -q -o $scratch select -count {*}$args
  regexp {(\d+) objects} [join [lines_of $scratch]] -> count
  return $count
}

# Says something while Yosys runs, on the standard error of sec-verilog.
proc tell {text} {
  global side
  catch {
    set file [open /dev/fd/3 a]
    puts $file "sec-verilog: $side: $text"
    close $file
  }
}

# The memories of a design, before they are mapped: for each its name, its width and its words.
proc memories_of {scratch} {
  yosys tee -q -o $scratch dump m:*
  set found {}
  foreach line [lines_of $scratch] {
    if {[regexp {^ *memory(.*) \\?(\S+)$} $line -> sizes name]} {
      set width 1
      set size 1
      regexp { width (\d+)} $sizes -> width
      regexp { size (\d+)} $sizes -> size
      lappend found $name $width $size
    }
  }
  return $found
}

# Before a design is flattened: modules and instances of these names stay whole.
proc keep_boxes {boxes} {
  foreach box $boxes {
    yosys setattr -mod -set keep_hierarchy 1 $box "\$paramod*\\\\$box" "\$paramod\\\\$box\\\\*"
    yosys setattr -set keep_hierarchy 1 */c:$box
  }
}

# In a flat design: what is kept whole, and memories of more bits than N, if there is an N, become ports: their outputs are inputs, and what they read
# are outputs. Returns what they are, cell by cell, with all that makes one another than the next.
proc expose_boxes {boxes most scratch} {
  if {$most ne ""} { yosys memory -nomap -nordff }
  set picked {}
  foreach box $boxes {
    lappend picked t:$box "t:\$paramod*\\\\$box" "t:\$paramod\\\\$box\\\\*" c:$box
  }
  yosys tee -q -o $scratch dump {t:$mem*} {*}$picked
  set told {}
  set cell ""
  set large {}
  foreach line [lines_of $scratch] {
    if {[regexp {^ *cell (\S+) \\?(\S+)$} $line -> kind cell]} {
      set facts [list "$cell $kind"]
      array set numbers {WIDTH 0 SIZE 0}
    } elseif {$cell ne "" && [regexp {^ *parameter (?:signed )?\\(\S+) (.*)$} $line -> name value]} {
      if {$name ne "MEMID"} { lappend facts "$cell $name $value" }
      if {$name in {WIDTH SIZE}} { set numbers($name) $value }
    } elseif {$cell ne "" && [regexp {^ *end$} $line]} {
      if {![string match {$mem*} $kind]} {
        lappend told {*}$facts
      } elseif {$most ne "" && $numbers(WIDTH) * $numbers(SIZE) > $most} {
        lappend told {*}$facts
        lappend large c:$cell
      }
      set cell ""
    }
  }
  set picked [concat $picked $large]
  if {$picked ne ""} { yosys expose -evert {*}$picked }
  return $told
}

# A flip-flop with an asynchronous reset is a plain one that the reset also masks: what Yosys's async2sync makes, with names that depend
# on the flip-flop's alone, so that --expose finds them in both designs, and with its initial value.
proc write_resets {path} {
  set file [open $path w]
  foreach edge {P N} {
    foreach {level value gate} {P 0 ANDNOT N 0 AND P 1 OR N 1 ORNOT} {
      puts $file "(* techmap_celltype = \"\$_DFF_$edge$level${value}_\" *)
module reset_$edge$level$value (input D, C, R, output Q);
  parameter _TECHMAP_WIREINIT_Q_ = 1'bx;
  wire _TECHMAP_REMOVEINIT_Q_ = 1'b1;
  wire next;
  (* init = _TECHMAP_WIREINIT_Q_ *) wire kept;
  \\\$_${gate}_ before (.A(D), .B(R), .Y(next));
  \\\$_DFF_${edge}_ flop (.D(next), .C(C), .Q(kept));
  \\\$_${gate}_ behind (.A(kept), .B(R), .Y(Q));
endmodule"
    }
  }
  close $file
}

# With clocks as inputs: a step of time is less than a period of any clock. A flip-flop has its data of the step before where its clock changes,
# and a latch what comes in where it is open; else they keep what they had a step before, in `past`.
proc write_clocked {path} {
  set file [open $path w]
  foreach {edge rises} {P "  \\\$_ANDNOT_ rise (.A(C), .B(past_clock), .Y(edges));" N "  \\\$_ANDNOT_ fall (.A(past_clock), .B(C), .Y(edges));"} {
    set flop "  parameter _TECHMAP_WIREINIT_Q_ = 1'bx;
  wire _TECHMAP_REMOVEINIT_Q_ = 1'b1;
  wire past_clock, edges, loaded;
  (* init = _TECHMAP_WIREINIT_Q_ *) wire past_data;
  (* init = _TECHMAP_WIREINIT_Q_ *) wire past;
  \\\$_FF_ clock (.D(C), .Q(past_clock));
  \\\$_FF_ data (.D(D), .Q(past_data));
$rises
  \\\$_MUX_ load (.A(past), .B(past_data), .S(edges), .Y(loaded));
  \\\$_FF_ keep (.D(Q), .Q(past));"
    puts $file "(* techmap_celltype = \"\$_DFF_${edge}_\" *)
module clocked_$edge (input D, C, output Q);
$flop
  assign Q = loaded;
endmodule"
    foreach {level value gate} {P 0 ANDNOT N 0 AND P 1 OR N 1 ORNOT} {
      puts $file "(* techmap_celltype = \"\$_DFF_$edge$level${value}_\" *)
module clocked_$edge$level$value (input D, C, R, output Q);
$flop
  \\\$_${gate}_ reset (.A(loaded), .B(R), .Y(Q));
endmodule"
    }
  }
  foreach {level low high} {P past D N D past} {
    puts $file "(* techmap_celltype = \"\$_DLATCH_${level}_\" *)
module clocked_latch_$level (input D, E, output Q);
  parameter _TECHMAP_WIREINIT_Q_ = 1'bx;
  wire _TECHMAP_REMOVEINIT_Q_ = 1'b1;
  (* init = _TECHMAP_WIREINIT_Q_ *) wire past;
  \\\$_MUX_ load (.A($low), .B($high), .S(E), .Y(Q));
  \\\$_FF_ keep (.D(Q), .Q(past));
endmodule"
  }
  close $file
}

yosys hierarchy -check -top $top
keep_boxes $boxes
yosys proc
yosys flatten
set out [open $facts w]
# What is asserted or assumed in the Verilog is no part of the circuit.
puts $out "formal [count_of $scratch {t:$assert} {t:$assume} {t:$live} {t:$fair} {t:$cover}]"
yosys chformal -remove
foreach net [assigned_twice $scratch] { puts $out "twice $net" }
set cells [cells_with_x $scratch]
if {$x eq "0"} { yosys setundef -zero }
if {$x eq "1"} { yosys setundef -one }
yosys opt_expr
yosys opt_clean
foreach place [places_of $cells $scratch] { puts $out "x $place" }
foreach name [expose_undriven $scratch] { puts $out "undriven $name" }
foreach {name width size} [memories_of $scratch] {
  if {$box_memories eq "" && $width * $size > $flops} {
    puts $out "large $name: $size x $width = [expr {$width * $size}]"
    close $out
    exit 1
  }
  if {$width * $size > $slow && ($box_memories eq "" || $width * $size <= $box_memories)} {
    tell "memory $name becomes $size x $width = [expr {$width * $size}] flip-flops, which takes yosys a while; --box-memories N makes memories above N bits boxes"
  }
}
foreach line [expose_boxes $boxes $box_memories $scratch] { puts $out "box $line" }
close $out
yosys synth -run coarse: -flatten -nofsm -noshare -noabc -nordff -top $top
if {$clocks eq ""} {
  yosys async2sync {t:$_ALDFF*} {t:$_DFFSR*} {t:$_SR_*} {t:$_DLATCH*}
  yosys dfflegalize -cell {$_DFF_?_} 01 -cell {$_DFF_???_} 01
  yosys rename -wire -suffix .flop {t:$_DFF_???_}
  write_resets $resets
  yosys techmap -map $resets
} else {
  yosys dfflegalize -cell {$_DFF_?_} 01 -cell {$_DFF_???_} 01 -cell {$_DLATCH_?_} 01
  yosys rename -wire -suffix .flop {t:$_DFF_*_} {t:$_DLATCH_?_}
  write_clocked $resets
  yosys techmap -map $resets
  yosys opt_merge
}
# All names of each bit, before those go that nothing needs.
yosys opt_clean
yosys write_blif $scratch.names
yosys opt_clean -purge
yosys write_blif -noalias $blif
