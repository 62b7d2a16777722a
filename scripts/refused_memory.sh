#!/bin/sh
# Each allocation of each command refused in turn, on small files: the program must end, without a fault of its own, with the status and the
# output that it has otherwise, or with another status. Prints the last line of each command's runs, with how many allocations were refused.
# Ends with 1 where a run faults, hangs, or ends well with other output. The libraries must be built (./wadrelion does it); nothing is proved.
# Usage: scripts/refused_memory.sh [COMMAND..]
top=$(CDPATH= cd -- "$(dirname -- "$0")/.." && pwd) || exit 2
command -v rt >/dev/null || { echo "$0: the kit's command rt is not on the PATH" >&2; exit 2; }
folder=$(mktemp -d) || exit 2
trap 'rm -rf "$folder"' EXIT
cat >"$folder/plan" <<'PLAN'
version = 1
width = 4
ticks = 2
[[element]]
kind = "cic_down"
factor = 2
stages = 1
[[element]]
kind = "filter"
taps_file = "taps"
[[element]]
kind = "round"
shift = 1
PLAN
printf '1, -2\n1\n' >"$folder/taps"
printf '5\n-7\n7\n0\n' >"$folder/samples"
cat >"$folder/text" <<'TEXT'
module t (input clk, rst, ce, input signed [3:0] in_data, output out_valid, output signed [4:0] out_data);
  reg signed [3:0] a;
  assign out_valid = 1'h1;
  assign out_data = in_data + a;
  always @(posedge clk) if (rst) a <= 4'sh0; else if (ce) a <= in_data;
endmodule
TEXT
printf '1 0 0\n0 1 5\n0 1 -8\n' >"$folder/stimulus"

status=0
refused() {
    printf '%s: ' "$1"
    (cd "$top/crates/filter_cli" && rt try --fail-alloc 1.. --data plan="$folder/plan" --data taps="$folder/taps" --data samples="$folder/samples" \
        --data text="$folder/text" --data stimulus="$folder/stimulus" -- "$@") >"$folder/said" 2>&1
    case $? in 4 | 5 | 6) status=1; cat "$folder/said" ;; esac
    tail -n 1 "$folder/said"
}
words_of() {
    case $1 in
    compile) echo compile plan out report ;;
    run) echo run plan samples out ;;
    extreme) echo extreme plan s1_w0 out ;;
    noble) echo noble plan out ;;
    migrate) echo migrate plan out ;;
    sim) echo sim text stimulus out ;;
    order) echo order text stimulus out 7 ;;
    demo) echo demo 1 out ;;
    *) echo "$0: no command is named $1" >&2; exit 2 ;;
    esac
}
[ $# -gt 0 ] || set -- compile run extreme noble migrate sim order demo
for command in "$@"; do
    words=$(words_of "$command") || exit 2
    # shellcheck disable=SC2086
    refused $words
done
exit $status
