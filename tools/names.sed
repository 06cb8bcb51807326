# Names that changed, old to new. Each file is one pattern space (sed -z), so that an address may ask what a file imports.
# Run by tools/rename.

# A passage is called passage: in the schedule Passage (was Visit), on a path PathPassage (was Place).
/declared\.Passage\.\{Passage\}/{
s/Schedule\.\{Visit, /Schedule.{/g
s/use Rattle·model\.specs\.Schedule\.\{Visit\}\n//g
s/\bVisit\b/Rattle·model.specs.Schedule.Passage/g
}
s/\bVisit\b/Passage/g
s/\bvisitArc\b/passageArc/g
s/\bvisitAt\b/passageAt/g
s/\bvisitOf\b/passageOf/g
s/\bnoVisit\b/noPassage/g
s/\bnewVisit\b/newPassage/g
s/\browVisit\b/rowPassage/g
s/\bSmallVisit\b/SmallPassage/g
s/\bvisit\b/passage/g
s/\bvisits\b/passages/g

/Network\.\{|unfoldable pub follow :/{
/Network\.\{[^}]*withPlace|unfoldable pub follow :/s/\bwithPlace\b/withPassage/g
s/\bPlace\b/PathPassage/g
s/\bplaceOf\b/passageIn/g
s/\bnoPlace\b/noPathPassage/g
s/\bstartPlace\b/startPassage/g
s/ \.places\b/ .present/g
s/\bplaces =/present =/g
s/\bpub places : List PathPassage\b/pub present : List PathPassage/g
}

# `plan` is left to the slot planner. Plan was the passages opened so far, plan the schedule that 7 to 12 accept.
/proofs\.proofs\.plan\b/!{
/Schedule\.\{[^}]*\bPlan\b|unfoldable pub goOn :/{
s/([ ({\n])plan([ ,})\n])/\1soFar\2/g
s/([ ({\n])plan([ ,})\n])/\1soFar\2/g
s/ \.plan([ ;,)\n])/ .soFar\1/g
s/\bPlan\b/OpenedSoFar/g
}
s/([ ({\n])plan([ ,})\n])/\1acceptedSchedule\2/g
s/([ ({\n])plan([ ,})\n])/\1acceptedSchedule\2/g
s/ \.plan([ ;,)\n])/ .acceptedSchedule\1/g
# in a comment it is a word
:comment
s/((^|\n) *-- [^\n]*[ (])acceptedSchedule\b/\1plan/
tcomment
}
s/\bplanOf\b/acceptedScheduleOf/g
s/\bplanIn\b/acceptedScheduleIn/g

# The choice without its search, among the definitions.
/proofs\.Choice\.\{[^}]*\bTaken\b/s/\bTaken\b/TakenEdge/g

# Bytes are laid by `translate` and by the chart.
s/\btranslateWith\b/bytesWith/g

# Sums over lists and numbered lists, which stood in ProgramSize, are of no program: Basics.Sums.
:sums
s/((\n|^)(ghost )?use Rattle·model(·proofs)?\.proofs\.)ProgramSize\.\{([^}]*, )?(total|each-join|each-total|length-from|at-from|by-number)(, [^}]*)?\}(;?)/\1Basics.Sums.{\6}\8\1ProgramSize.{\5\7}\8/
ttidy
bjoin
:tidy
s/(ProgramSize\.\{[^}]*), , /\1, /g
s/(ProgramSize\.\{[^}]*), \}/\1}/g
s/ProgramSize\.\{, /ProgramSize.{/g
s/\n(ghost )?use Rattle·model(·proofs)?\.proofs\.ProgramSize\.\{\};?//g
bsums
:join
s/(\n(ghost )?use Rattle·model(·proofs)?\.proofs\.Basics\.Sums\.\{)([^}]*)\}(;?)\1([^}]*)\}/\1\6, \4}/
tjoin
