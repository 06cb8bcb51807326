#!/usr/bin/env bash
# Holds what docs/REVIEWERS.md says that the proofs rest on to what `rt` prints: for each crate the words axioms=, native=, logic-built= and
# libraries-built= of its proved line. Any difference fails the whole.
set -euo pipefail
cd "$(dirname "$0")/.."

programs=(schedule_printer chart_printer verdict_printer spread_printer reason_printer plan_table translate_table program_listing trial_run simulate_runs uppaal_printer)
built="$(bash tools/build realised timed_network timed_network_words timed_node "${programs[@]}" 2>&1)" || {
    printf '%s\n' "$built"
    exit 1
}

# The words of the proved line of a crate's last check, which stays in .say where nothing had to be proved again; those of the crates below stand above it. A
# crate whose graph has no axiom has no word for them. That tools/build goes on from what earlier checks kept is no matter of the proofs: `rt ci` does not.
printed() {
    sed -n 's/^logic=proved //p' "target/log/$1.say" | tail -n 1 | tr ' ' '\n' | grep -E '^(foreign|axioms|native|logic-built|libraries-built|pinned|cache)=' | xargs
}

# The words of the row of docs/REVIEWERS.md that names the crate, else of the row of the library's crates.
said() {
    local row
    row=$(grep -E "^\|[^|]*\`$1\`[^|]*\| (none|[0-9]+) \|" docs/REVIEWERS.md || grep '^| each crate of the library' docs/REVIEWERS.md)
    awk -F ' *\\| *' '{ gsub(/`/, ""); print ($3 == "none" ? "" : "axioms=" $3 " ") "native=" $5 " logic-built=" $6 " libraries-built=" $7 }' <<<"$row"
}

tried=0 failed=0
for log in target/log/*.say; do
    crate=$(basename "$log" .say)
    [[ -d crates/$crate ]] || continue
    tried=$((tried + 1))
    if [[ $(printed "$crate") != "$(said "$crate")" ]]; then
        failed=$((failed + 1))
        printf 'FAILED: %s: rt prints %s; docs/REVIEWERS.md says %s\n' "$crate" "$(printed "$crate")" "$(said "$crate")"
    fi
done

echo "what the proofs rest on: $tried crates tried, $failed failed"
((failed == 0 && tried > ${#programs[@]}))
