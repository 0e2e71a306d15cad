# Adds up the most stack that each exported function of a module can take, from what the compiler writes of the module: the
# sizes of its frames (-fstack-usage), and its assembly for x86-64. A function takes
# - 8 bytes for its return address;
# - what its instructions push, and take from the stack pointer. That is its frame as the compiler tells it, and the
#   arguments that it pushes for calls, which the compiler does not tell;
# - 128 bytes more, below the stack pointer, where it calls nothing: they are free to be written there, and the compiler
#   does not tell them either.
# Along a path of calls that is added up; a tail call counts as a call. The functions of the C library that compilers call
# by themselves are named, and not counted. What has no such sum is refused in one sentence, with status 1.
#   awk -f tools/stack.awk MODULE.su MODULE.s
BEGIN {
    FS = "\t"
    outside_count = split("bcmp memcmp memcpy memmove memset", outside, " ")
    for (i = 1; i <= outside_count; i++) is_outside[outside[i]] = 1
}

# Ends with a sentence.
function refuse(sentence) {
    print "stack: " sentence >"/dev/stderr"
    refused = 1
    exit 1
}

# A name as the frames have it.
function plain(name) {
    sub(/@PLT$/, "", name)
    gsub(/"/, "", name)
    return name
}

# Keeps that the function calls another.
function add_call(word) {
    if (word ~ /^\*/) refuse(function_name " calls by a pointer: " word)
    word = plain(word)
    if (word in frame) callee[function_name, ++callees[function_name]] = word
    else if (word in is_outside) called_outside[word] = 1
    else refuse(function_name " calls " word ", which has no frame here")
}

# Keeps what an instruction takes from the stack pointer.
function add_bytes(instruction, words,    bytes) {
    if (instruction !~ /^(add|sub)q$/ || words !~ /^\$-?[0-9]+, %rsp$/)
        refuse(function_name " moves the stack pointer: " instruction " " words)
    bytes = substr(words, 2) + 0
    if (instruction == "addq") bytes = -bytes
    if (bytes > 0) taken[function_name] += bytes
}

# The bytes of a function by itself.
function own(name) { return 8 + taken[name] + (name in has_call ? 0 : 128) }

# The bytes of the deepest path from a function on. Keeps them, and the path.
function deepest(name,    i, next_name, most) {
    if (name in total) return total[name]
    if (name in entered) refuse(name " can call itself")
    entered[name] = 1
    most = 0
    for (i = 1; i <= callees[name]; i++) {
        next_name = callee[name, i]
        if (deepest(next_name) > most) {
            most = total[next_name]
            path[name] = ", " path[next_name]
        }
    }
    path[name] = name " " own(name) path[name]
    return total[name] = own(name) + most
}

# ---- the frames

FILENAME == ARGV[1] {
    name = $1
    sub(/^[^:]*:/, "", name)
    if (NF != 3 || $2 !~ /^[0-9]+$/ || $3 != "static") refuse("the frame of " name " has no fixed size")
    frame[name] = $2 + 0
    next
}

# ---- the assembly

{
    tail_call = ($0 ~ /# TAILCALL/)
    sub(/[ \t]+#.*/, "")
}
$2 == ".globl" { exported[plain($3)] = 1 }
$2 == ".type" && /,@function$/ {
    function_name = $3
    sub(/,@function$/, "", function_name)
    function_name = plain(function_name)
    if (!(function_name in frame)) refuse(function_name " has no frame")
    has_code[function_name] = 1
    taken[function_name] = 0
}
$2 ~ /^push/ { taken[function_name] += 8 }
$3 ~ /, %rsp$/ { add_bytes($2, $3) }
$2 ~ /^call/ {
    has_call[function_name] = 1
    add_call($3)
}
$2 ~ /^j/ && (tail_call || $3 !~ /^(\.L|\*)/) { add_call($3) }

# ---- the sums

END {
    if (refused) exit 1
    for (name in frame) {
        if (!(name in has_code)) refuse(name " has a frame, and no code")
        if (taken[name] < frame[name]) refuse(name " takes " taken[name] " bytes for a frame of " frame[name])
        deepest(name)
    }
    for (name in exported) if (name in frame) lines[++line_count] = name
    if (line_count == 0) refuse("no function is exported")
    for (i = 1; i <= line_count; i++) {
        name = lines[i]
        sub(/^ebbcandle_/, "", name)
        print name " " total[lines[i]] ": " path[lines[i]] | "sort"
    }
    close("sort")
    for (i = 1; i <= outside_count; i++)
        if (outside[i] in called_outside) beside = beside ", " outside[i]
    print "called beside, not counted: " (beside == "" ? "nothing" : substr(beside, 3))
}
