# Prints each call that is in a cycle of calls, or between two cycles. Read are crates.txt and the crates' code, in the layout that `rt fmt` makes.
#
# A function calls another of its crate where its code has that one's name. Left out is the name of a field or of what is bound, and what the file takes
# from another crate. Functions of one name in one crate count as one.

# notes the names of functions that a piece of code has
function read(code, path, before, is_call, first, name) {
    gsub(/"([^"\\]|\\.)*"/, "", code)
    before = ""
    while (match(code, /[A-Za-z_][A-Za-z0-9_]*(::[A-Za-z_][A-Za-z0-9_]*)*/)) {
        path = substr(code, RSTART, RLENGTH)
        before = before substr(code, 1, RSTART - 1)
        code = substr(code, RSTART + RLENGTH)
        is_call = code ~ /^(\(|::<)/
        first = name = path
        sub(/::.*/, "", first)
        sub(/.*::/, "", name)
        if (before ~ /(^|[^a-z_])(let|mut|for|ref) $/ || code ~ /^:([^:]|$)/) bound[caller, name]
        else if (first != path) is_call = first == crate || !(first in other) && !((FILENAME, first) in taken)
        else if (before !~ /\.$/) is_call = !((FILENAME, name) in taken) && (is_call || !((caller, name) in bound))
        if (is_call) named[caller, name]
        before = before path
    }
}

# notes what a file takes from another crate
function take(use, first, piece, count, i) {
    sub(/^ *(pub(\([a-z]*\))? )?use /, "", use)
    first = use
    sub(/[:;].*/, "", first)
    if (!(first in other)) return
    gsub(/[{},;:]+/, " ", use)
    count = split(use, piece, " ")
    for (i = 2; i <= count; i++) taken[FILENAME, piece[i]]
}

BEGIN { other["std"]; other["core"]; other["io"] }
FILENAME ~ /crates\.txt$/ { sub(/[ :].*/, ""); other[$0]; next }
FNR == 1 { crate = FILENAME; sub(/\/src\/.*/, "", crate); sub(/.*\//, "", crate); caller = use = "" }
{ sub(/(^| )\/\/.*/, "") }
use != "" || /^ *(pub(\([a-z]*\))? )?use / {
    use = use $0
    if (/;$/) { take(use); use = "" }
    next
}
match($0, /^ *(pub(\([a-z]*\))? )?((const|unsafe|extern "C") )*fn /) {
    rest = substr($0, RLENGTH + 1)
    indent = $0
    sub(/[^ ].*/, "", indent)
    name = rest
    sub(/[^A-Za-z0-9_].*/, "", name)
    caller = crate "::" name
    known[caller]
    is_code = rest ~ /\{$/
    if (rest ~ /\}$/) { sub(/^[^{]*/, "", rest); read(rest); caller = "" }
    next
}
caller == "" { next }
$0 == indent "}" { caller = ""; next }
is_code { read($0); next }
$0 == indent "{" || /^ *\).*\{$/ { is_code = 1 }
!is_code && /^ *[a-z_0-9]+:/ { sub(/:.*/, ""); sub(/^ */, ""); bound[caller, $0] }

END {
    for (pair in named) {
        split(pair, part, SUBSEP)
        callee = part[1]
        sub(/::.*/, "::" part[2], callee)
        if (callee in known) call[part[1], callee]
    }
    # a call stays while what it comes from is called, and what it goes to calls
    do {
        split("", calls)
        split("", called)
        for (pair in call) { split(pair, part, SUBSEP); calls[part[1]]; called[part[2]] }
        gone = 0
        for (pair in call) {
            split(pair, part, SUBSEP)
            if (!(part[1] in called) || !(part[2] in calls)) { delete call[pair]; gone = 1 }
        }
    } while (gone)
    for (pair in call) { split(pair, part, SUBSEP); print part[1] " calls " part[2] }
}
