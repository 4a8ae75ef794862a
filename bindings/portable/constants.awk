# Of the C that wasm2c made of the module: marks the loads that may read constants. Their names get the end _anywhere. They are those in a function
# that has the address of a constant as a number, and in all functions that such a one calls. Elsewhere such an address is outside the memory.
# awk -v heap=END -f constants.awk FILE FILE, the same file twice; the constants stand at 65,536 and on, before heap.

function is_of_constant(number) {
    return number >= 65536 && number < heap
}

# The name before the last bracket that opens a list.
function called(line) {
    sub(/\(.*/, "", line)
    sub(/.* /, "", line)
    return line
}

/^static .*_t\* instance[,)]/ { here = called($0) }

# An address that is worked out with is a number of 64 bits; one that is read at stands in the line before.
NR == FNR {
    number = match($0, / = [0-9]+u/) ? substr($0, RSTART + 3) + 0 : 0
    if ((/ull;/ && is_of_constant(number)) || (/_load/ && is_of_constant(before))) may[here]
    if (/ w2c_[a-z0-9_]+\(instance[,)]/) calls[here, called($0)]
    before = number
    next
}

FNR == 1 {
    do {
        is_more = 0
        for (call in calls) {
            split(call, of, SUBSEP)
            if (of[1] in may && !(of[2] in may)) {
                may[of[2]]
                is_more = 1
            }
        }
    } while (is_more)
}

here in may { sub(/_load[0-9a-z_]*/, "&_anywhere") }
{ print }
