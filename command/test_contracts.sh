#!/usr/bin/env bash
# Tries tools/contracts: that it refuses what no proof would, each in a copy of only the files that it reads, and takes what changes no promise. Its sums are
# those of the copy, so that it holds whatever docs/CHANGES.md says. Nothing is proved; a few seconds.
set -euo pipefail
root="$(cd "$(dirname "$0")/.." && pwd)"
scratch="$(mktemp -d)"
trap 'rm -rf -- "$scratch"' EXIT
tried=0 failed=0

mkdir "$scratch/docs"
cp -a "$root/tools" "$root/include" "$scratch/"
(cd "$root" && cp -a --parents crates/*/specs crates/*/src "$scratch/")
mkdir "$scratch/node"
cp -a "$root/node/timed_node_calls.h" "$scratch/node/"
cd "$scratch"

# Writes the texts of the copy, and their sums where tools/contracts looks for them.
keep() {
    : >docs/CHANGES.md
    bash tools/contracts --keep 2>said >/dev/null
    sed -n 's/^contracts: .* with this line: //p' said >docs/CHANGES.md
}

wrong() {
    failed=$((failed + 1))
    echo "FAILED: $1"
    sed 's/^/    /' said | head -n 20
}

# That it takes the copy as it is: what the copy is.
takes() {
    tried=$((tried + 1))
    bash tools/contracts >said 2>&1 || wrong "$1: refused"
}

# That it refuses the copy, and says so with these words: what the copy is, the words.
refuses() {
    tried=$((tried + 1))
    if bash tools/contracts >said 2>&1; then
        wrong "$1: taken"
    elif ! grep -q -F -- "$2" said; then
        wrong "$1: refused, but not with: $2"
    fi
}

# Changes one file by a sed script, which has to change it, and takes the change back after the trial: takes or refuses, what it is, file, script, words.
with() {
    cp -p "$3" kept
    sed -i "$4" "$3"
    if cmp -s kept "$3"; then wrong "$2: its script changes nothing in $3"; fi
    "$1" "$2" "${5-}"
    cp -p kept "$3"
}

keep
takes 'the tree'

with refuses 'a hypothesis three files away (uppaal_export.rt, UppaalCall, SamePaths, XtaNetwork)' crates/uppaal/specs/XtaNetwork.antt \
    's/^  meet : \(.*\) → (p ≡ q → ⊥)$/  meet : \1 → (p ≡ q → ⊥) → p < q/' 'is not what docs/promises.txt has'
with refuses 'a hypothesis in a type whose name has a small letter' crates/model/specs/Demand3.antt 's/^ready_is \(.*\) = /&0 < 1 → /' \
    'is not what docs/promises.txt has'
with refuses 'a hypothesis in a promise itself' crates/later_runs/specs/RunTo.antt 's/H ≤ 4294967295 → (run_to_call/H ≤ 60000 → (run_to_call/' \
    'is not what docs/promises.txt has'
with refuses 'a field less' crates/later_runs/specs/RunTo.antt '/^  pub demand3 : /d' 'is not what docs/promises.txt has'
with refuses 'another definition under the same name' crates/later_runs/specs/RunTo.antt \
    's/^use Rattle.model.specs.Demand3.{Demand3}$/use Rattle.model.specs.Apart.{Demand3Apart as Demand3}/' 'is not what docs/promises.txt has'
with refuses 'another parameter of the module around a promise' crates/slot_plan/specs/PlanSchedule.antt \
    's/^module _ (slots : Slots) where$/module _ (slots : Slots) (few : slots.probes ≤ 2) where/' 'is not what docs/promises.txt has'
with refuses 'a variant less of what is asked of a site' crates/site/specs/Airtime.antt '/^pub data Request/,/^$/{/^  take/d}' 'is not what docs/promises.txt has'
with refuses 'a spare byte in the padding of an exported struct' crates/timed_network/src/component_positions.rt \
    's/^    pub component: u8,$/    pub component: u8,\n    pub spare: u8,/' 'is not what docs/promises.txt has'
with refuses 'a spare byte in a struct of another crate' crates/site/src/lib.rt '/^pub struct Networks/,/^}/s/^    pub component: u8,$/&\n    pub spare: u8,/' \
    'is not what docs/promises.txt has'
with refuses 'a struct without its layout' crates/node/src/lib.rt '/^#\[repr(C)\]$/d' 'is not what docs/promises.txt has'
with refuses 'a weaker contract' crates/timed_network/src/lib.rt 's/ × Demand3Of table\.now choices\.now//' 'is not what docs/contracts.txt has'
with refuses 'a promise that no law takes apart' crates/refused_opening/specs/PromisedSaid.antt 's/ → OpeningTold bs$//' 'refused_opening/Promised/OpeningTold'
with refuses 'a function that no header declares' include/timed_network_words.h 's/timed_network_words_chart/timed_network_words_picture/' 'does not declare exactly'
with takes 'a comment more in a definition' crates/later_runs/specs/RunTo.antt 's/^  pub demand3 : /  -- document 01\n&/'
# shellcheck disable=SC2016 # the dollars are the end of a line, and of the file
with takes 'a law more' crates/later_runs/specs/RunToSaid.antt '$s/$/\n\npub again : ℕ → ℕ\nagain n = n/'

with refuses 'a call of timed_node that its header does not declare' node/timed_node_calls.h 's/timed_node_happened/timed_node_told/' 'does not declare exactly'

sed -i '/^Promises: /d' docs/CHANGES.md
refuses 'promises that docs/CHANGES.md does not name' 'docs/CHANGES.md has to say what changed'

echo "contracts tried: $tried, $failed failed"
((failed == 0))
