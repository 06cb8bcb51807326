# A module of the proved code, for another processor. The variables triple and layout are those of that processor.
#
# What is changed, in this order: (1) the data layout, (2) the triple, (3) the three attributes that name x86 or its stack, (4) the width of the length that
# memmove or memset is handed, (5) the same where the two are declared. Every other line stays as it is, and has to be one of those below: numbers of 1 to
# 64 bits and pointers, bytes at written-out offsets, calls of the module's own functions. No number is made of a pointer or the other way
# round (a pointer may be compared with null), no type but an array of bytes has a layout of its own, no global, no other function of LLVM's. Anything else
# ends this with 1.

function refuse(why) {
    printf "retarget: line %d: %s: %s\n", FNR, why, $0 >"/dev/stderr"
    refused = 1
    exit 1
}

# Whether the line is exactly of this form.
function is(form) {
    return $0 ~ ("^" form "$")
}

# Whether it is a statement of a function.
function is_statement() {
    return is("  " name " = alloca (" number "|ptr|\\[[0-9]+ x i8\\]), align [1248]") ||
        is("  " name " = load (" number "|ptr), ptr " name ", align [1248](, !range !1)?(, !noundef !2)?") ||
        is("  store (" number "|ptr) " value ", ptr " name ", align [1248]") ||
        is("  " name " = getelementptr( inbounds nuw)? i8, ptr " name ", i64 " value) ||
        is("  " name " = (add|sub|mul|xor)( nuw)?( nsw)? " number " " value ", " value) ||
        is("  " name " = icmp (eq|ne|ult|ule|ugt|uge|slt|sle|sgt|sge) " number " " value ", " value) ||
        is("  " name " = icmp eq ptr " name ", null") ||
        is("  " name " = (zext|sext|trunc)( nuw)?( nsw)? " number " " value " to " number) ||
        is("  (" name " = )?call (void|" number ") " called "\\((" handed "(, " handed ")*)?\\)") ||
        is("  br (label|i1 " name ", label " name ", label) " name) ||
        is("  ret (void|(ptr|" number ") " value ")")
}

# Whether it is a line around the statements, or behind all functions.
function is_frame() {
    return is("") || is("}") || is("[a-z]+(\\.[0-9]+)?:( *; preds = [%a-z0-9., ]+)?") ||
        is("define (internal )?(noundef (zeroext |signext )?)?(void|ptr|" number ") " called "\\((" taken "(, " taken ")*)?\\) #0 \\{") ||
        is("; (ModuleID = '[^']*'|Function Attrs: [a-z() :]+)") || is("source_filename = \"rattle\"") ||
        is("attributes #[12] = \\{ nocallback nofree nounwind willreturn memory\\(argmem: (read)?write\\) \\}") ||
        is("!llvm.ident = !\\{!0\\}") || is("!0 = !\\{!\"rattle logic=[0-9a-f]+\"\\}") || is("!1 = !\\{i8 0, i8 2\\}") || is("!2 = !\\{\\}")
}

# Counts how often a rule was used.
function used(rule) {
    uses[rule]++
}

BEGIN {
    number = "i(1|8|16|32|64)"
    name = "%[a-z0-9.]+"
    value = "(" name "|-?[0-9]+|true|false)"
    # a function of the module: the name of an exported one, or in quotes that of a crate's
    called = "@(timed_node_[a-z_]+|\"[a-z0-9_]+(::[a-z0-9_]+)+\")"
    handed = "(ptr|" number ") " value
    taken = "(ptr|" number ") noundef( zeroext| signext)? " name
    moved = "@llvm\\.mem(move\\.p0\\.p0\\.i64\\(ptr " name ", ptr " name "|set\\.p0\\.i64\\(ptr " name ", i8 0), i64 [0-9]+, i1 false\\)"
    if (triple == "" || layout == "") {
        print "retarget: no triple or no data layout of the processor" >"/dev/stderr"
        refused = 1
        exit 1
    }
}

is("target datalayout = \"e-m:e-p270:32:32-p271:32:32-p272:64:64-i64:64-i128:128-f80:128-n8:16:32:64-S128\"") {
    used(1)
    print "target datalayout = \"" layout "\""
    next
}

is("target triple = \"x86_64-unknown-linux-gnu\"") {
    used(2)
    print "target triple = \"" triple "\""
    next
}

is("attributes #0 = \\{ nounwind \"probe-stack\"=\"inline-asm\" \"stack-probe-size\"=\"3072\" \"target-cpu\"=\"x86-64\" \\}") {
    used(3)
    print "attributes #0 = { nounwind }"
    next
}

is("  call void " moved) {
    used(4)
    sub(/\.i64\(/, ".i32(")
    sub(/, i64 /, ", i32 ")
    print
    next
}

is("declare void @llvm\\.mem(move\\.p0\\.p0\\.i64\\(ptr writeonly captures\\(none\\), ptr readonly captures\\(none\\)|set\\.p0\\.i64\\(ptr writeonly captures\\(none\\), i8), i64, i1 immarg\\) #[12]") {
    used(5)
    sub(/\.i64\(/, ".i32(")
    sub(/, i64, /, ", i32, ")
    print
    next
}

is_statement() || is_frame() {
    print
    next
}

{ refuse("no rule for this line") }

END {
    if (refused) exit 1
    for (rule = 1; rule <= 5; rule++)
        if (uses[rule] == 0 || (rule < 4 && uses[rule] != 1) || (rule == 5 && uses[rule] != 2)) {
            printf "retarget: rule %d was used %d times\n", rule, uses[rule] >"/dev/stderr"
            exit 1
        }
}
