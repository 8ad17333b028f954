`define LENGTH 2
