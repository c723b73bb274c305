# retarget.awk -v layout=LINE -v triple=LINE -v also=LINE: a module of `rt lib`, as text, for another processor: its
# data layout and triple replaced, what names x86-64 taken away, a line added. Every other word of the module must be one
# of those listed here, none of which means another thing on another processor. So a module that turns a pointer into a
# number (ptrtoint; a place alone, ptrtoaddr, is taken), passes a struct by value (sret, byval), has machine code or
# features of one machine (asm, target-features), or another type than these, is refused, and a new kit cannot make the
# library wrong in silence.

BEGIN {
    known = "define internal declare attributes" # what a line begins with
    known = known " void ptr i1 i8 i16 i32 i64 x label null" # types, and the pointer that has 0 everywhere
    known = known " alloca load store align getelementptr inbounds call extractvalue" # memory
    known = known " add sub mul udiv urem shl lshr and or xor nuw nsw zext sext trunc to" # numbers
    known = known " icmp eq ne ult ule slt true false br switch ret unreachable" # tests and ways
    known = known " noundef zeroext nounwind noreturn cold alwaysinline nocallback nofree nosync willreturn speculatable"
    known = known " nocreateundeforpoison immarg captures none memory argmem inaccessiblemem read write readwrite"
    known = known " readonly writeonly"
    list(words, known)
    list(outside, "llvm.memmove.p0.p0.i64 llvm.memset.p0.i64 llvm.ctpop.i64 llvm.ctlz.i64 llvm.trap")
    x86_layout = "e-m:e-p270:32:32-p271:32:32-p272:64:64-i64:64-i128:128-f80:128-n8:16:32:64-S128"
}

function list(to, from,    i, n, parts) {
    n = split(from, parts, " ")
    for (i = 1; i <= n; i++) to[parts[i]] = 1
}

function refuse(what) {
    printf "hundurzek: the module of crate %s, line %d: %s, which may mean another thing on another processor\n", \
        crate, FNR, what >"/dev/stderr"
    print "hundurzek:   " $0 >"/dev/stderr"
    failed = 1
    exit 1
}

# Only what is listed may come from outside the module.
function declared(text) {
    sub(/^[^@]*@/, "", text)
    sub(/\(.*/, "", text)
    if (!(text in outside)) refuse("declares " text)
}

# Of a byte and a place the place lies 8 behind the byte, as the module stores it. A place as a number is that many.
function shorter(text) {
    gsub(/[{] i8, ptr [}]/, "{ i8, [7 x i8], ptr }", text)
    if (text ~ /= extractvalue [{] i8, \[7 x i8\], ptr [}] .*, 1$/) sub(/1$/, "2", text)
    if (text ~ /= ptrtoaddr ptr %[a-z0-9.]+ to i64$/) sub(/ptrtoaddr/, "ptrtoint", text)
    return text
}

# Every word but names, numbers and marks.
function tested(text,    i, n, parts) {
    sub(/; .*/, "", text)
    sub(/= ptrtoaddr ptr %[a-z0-9.]+ to i64$/, "= ", text)
    gsub(/[@%]"[^"]*"|[@%!#][A-Za-z0-9_.]*/, " ", text)
    if (text ~ /getelementptr/ && text !~ /getelementptr (inbounds nuw )?i8,/) refuse("a step of other than bytes")
    if (text ~ /^define /) sub(/ [{]$/, "", text)
    # Two numbers at once, or a place and a count, as a function hands them out: they lie alike wherever 64 bits lie at an
    # address divided by 8.
    if (layout ~ /-i64:64-/ && text ~ /^define internal |^ +(ret| += (call|load|extractvalue)) (noundef )?[{]/)
        sub(/[{] (ptr, i64|i8, ptr|i(8|16|32|64), i(8|16|32|64)) [}]/, " ", text)
    if (text ~ /^attributes /) gsub(/= [{]|[}]$/, "", text)
    if (text ~ /["<{}]/) refuse("a text, a struct or a vector")
    gsub(/[^A-Za-z0-9_.]+/, " ", text)
    n = split(text, parts, " ")
    for (i = 1; i <= n; i++)
        if (parts[i] !~ /^[0-9]+$/ && !(parts[i] in words)) refuse("the word " parts[i])
}

/^target datalayout = / {
    if ($0 != "target datalayout = \"" x86_layout "\"") refuse("another layout than expected")
    print layout
    next
}
/^target triple = / {
    if ($0 != "target triple = \"x86_64-unknown-linux-gnu\"") refuse("another triple than expected")
    print triple
    if (also != "") print also
    next
}
/^$/ || /^;/ || /^source_filename = "rattle"$/ || /^[a-z0-9.]+:/ || /^!llvm.ident = ![{]!0[}]$/ { print; next }
/^![0-9]+ = ![{](i8 0, i8 2|!"rattle logic=[0-9a-f]+")?[}]$/ { print; next }
/^[}]$/ { print; next }
# A table of the library's, as the bytes that lie there: its numbers are read as they are where the least byte comes first.
layout ~ /"e-/ && /^@[A-Za-z0-9_.]+ = private unnamed_addr constant \[[0-9]+ x i8\] c"[^"]*", align 8$/ { print; next }
/^declare / { declared($0) }
/^attributes / { gsub(/ "probe-stack"="inline-asm"| "stack-probe-size"="3072"| "target-cpu"="x86-64"/, "") }
{
    tested($0)
    print layout ~ /-p:32:32/ ? shorter($0) : $0
}
END { if (!failed && (FNR == 0 || layout == "" || triple == "")) exit 1 }
