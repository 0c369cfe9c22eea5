# Reads a disassembly. The stack of each exported call by the code itself: return address, pushes and reserved bytes of a function, and of the
# deepest it calls; or, where that is more, the bytes that it uses below its stack pointer, as one that calls nothing may; where another one
# seems to, it adds an index that is above them. An indirect call or recursion would have no such bound and is an error. The memory functions
# of C are not counted.
/^[0-9a-f]+ <.*>:$/ { name = $0; sub(/^[0-9a-f]+ </, "", name); sub(/>:$/, "", name); frame[name] = 8; next }
/\tpush / { frame[name] += 8 }
/\tsub +\$0x[0-9a-f]+,%rsp/ { size = $0; sub(/.*\$/, "", size); sub(/,.*/, "", size); frame[name] += hex(substr(size, 3)) }
/-0x[0-9a-f]+\(%rsp/ { size = $0; sub(/\(%rsp.*/, "", size); sub(/.*-0x/, "", size); if (hex(size) > below[name]) below[name] = hex(size) }
/\t(call|jmp) +\*/ { print "an indirect call in " name; exit 1 }
/R_X86_64_P(LT|C)32/ && (called || jumped) { callee = $0; sub(/.*R_X86_64_P(LT|C)32\t/, "", callee); sub(/-0x4$/, "", callee); sub(/^\.text\./, "", callee); calls[name] = calls[name] "\n" callee }
{ called = /\tcall /; jumped = /\tjmp /; if (called) caller[name] = 1 }
function hex(digits,    i, value) {
    for (i = 1; i <= length(digits); i++) value = 16 * value + index("0123456789abcdef", substr(digits, i, 1)) - 1
    return value
}
function depth(f, level,    list, n, i, most, d) {
    if (level > 20) { print "recursion at " f; exit 1 }
    most = f in caller ? 0 : below[f]
    n = split(substr(calls[f], 2), list, "\n")
    for (i = 1; i <= n; i++) if (list[i] in frame) { d = depth(list[i], level + 1); if (d > most) most = d }
    return frame[f] + most
}
END { for (f in frame) if (f ~ /^joukerpan_/) printf "%s %d\n", f, depth(f, 0) }
