#!/bin/sh
# Whether Icarus Verilog, Verilator's default lint and yosys take a text without a warning. Those that are not installed are named and
# skipped. Usage: scripts/foreign_check.sh TEXT; ends with 1 where one of them warns.
[ $# -eq 1 ] && [ -r "$1" ] || { echo "usage: $0 TEXT" >&2; exit 2; }
work=$(mktemp -d) || exit 2
trap 'rm -rf "$work"' EXIT
cp "$1" "$work/mr_filter.v"
cd "$work" || exit 2
status=0

# prints a line for a tool, and what it said
judge() {
    name=$1
    shift
    command -v "$1" >/dev/null || { echo "$name: skipped, not installed"; return; }
    if said=$("$@" 2>&1) && [ -z "$said" ]; then
        echo "$name: no warning"
    else
        echo "$name: $said"
        status=1
    fi
}

judge "Icarus Verilog" iverilog -g2001 -Wall -o out.vvp mr_filter.v
judge "Verilator" verilator --lint-only mr_filter.v
judge "yosys" yosys -q -p "read_verilog mr_filter.v; synth -auto-top"
exit $status
