# What the library takes of a Cortex-M4, as the tables of docs/BUDGET.md: code by the calls that a program makes, and stack and instructions
# of each call by cost.c. To be sourced at the root, after boards.sh.
m4=$out/cortex-m4

# linked ENTRY...: the code and constants that stay where a program calls these entries, memcpy and memset of newlib among them.
linked() {
    arm-none-eabi-gcc -mcpu=cortex-m4 -mthumb -nostartfiles -Wl,-z,noexecstack -Wl,--gc-sections -Wl,-e,ramsummer_fresh \
        $(printf -- '-Wl,-u,ramsummer_%s ' "$@") -L"$m4" -lramsummer -o "$m4/linked"
    arm-none-eabi-size "$m4/linked" | awk 'NR == 2 { print $1 }'
}

code_rows() {
    local basic="join tick make read write" most
    most="$basic fresh_sized view leave block resume refresh refresh_all release report remaining awaited share"
    echo "fresh, join, tick, make, read, write | $(linked $basic)"
    echo "all but frame | $(linked $most)"
    echo "all | $(linked $most frame)"
}

call_rows() {
    program cortex-m4 tests/cross/cost.c "$m4/cost"
    run cortex-m4 "$m4/cost" -icount shift=6
}

# For speed and for size; the library that stays is the one for size, as tools/cross builds it.
measure() {
    local level
    for level in -O3 -Os; do
        archive cortex-m4 "$level"
        code_rows >"$m4/code$level"
        call_rows >"$m4/calls$level"
    done
}

# beside NAME FIELDS: the rows of both levels side by side, these fields of them.
beside() { paste -d '|' "$m4/$1-Os" "$m4/$1-O3" | awk -F ' *[|] *' -v OFS=' | ' "{ print \"| \" $2 \" |\" }"; }

cost() {
    measure
    printf '| calls that a program makes | code at -Os | at -O3 |\n|---|---:|---:|\n'
    beside code '$1, $2, $4'
    printf '\n| call | stack at -Os | at -O3 | instructions at -Os | at -O3 | handles alike, at -Os | at -O3 |\n'
    printf '|---|---:|---:|---:|---:|---:|---:|\n'
    beside calls '$1, $2, $6, $3, $7, $4, $8'
}
