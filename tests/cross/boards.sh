# What compiles a C program for a target of tools/cross, what runs it there, and the tests that it passes; to be sourced at the root.

# The board of a Cortex-M4 is an mps2. That of a Cortex-M0+ is a micro:bit with a Cortex-M0, which has the same instructions; it gets RAM
# enough for the largest pool.
arm="arm-none-eabi-gcc -mthumb -specs=rdimon.specs -nostartfiles -Wl,-z,noexecstack -Ttests/cross/board.ld tests/cross/board.c"
rv32="riscv64-unknown-elf-gcc -march=rv32imac -mabi=ilp32 --specs=picolibc.specs --oslib=semihost --crt0=hosted tests/cross/rv32.c \
    -Wl,--defsym=__flash=0x80000000,--defsym=__flash_size=4M,--defsym=__ram=0x80400000,--defsym=__ram_size=4M"
board="-nographic -monitor none -serial none -chardev stdio,id=said -semihosting-config enable=on,target=native,chardev=said"

compiler() {
    case $1 in
    x86-64) echo cc ;;
    aarch64 | riscv64) echo "$1-linux-gnu-gcc -static" ;;
    armhf) echo arm-linux-gnueabihf-gcc -static ;;
    cortex-m4 | cortex-m0plus) echo "$arm -mcpu=$1" ;;
    rv32) echo "$rv32" ;;
    esac
}

runner() {
    case $1 in
    x86-64) ;;
    aarch64 | riscv64) echo "qemu-$1" ;;
    armhf) echo qemu-arm ;;
    cortex-m4) echo "qemu-system-arm $board -M mps2-an386 -kernel" ;;
    cortex-m0plus) echo "qemu-system-arm $board -M microbit -global nrf51-soc.sram-size=0x40000 -kernel" ;;
    rv32) echo "qemu-system-riscv32 $board -M virt -bios none -kernel" ;;
    esac
}

# Debian's, for both.
packages() {
    case $1 in
    x86-64) echo gcc libc6-dev ;;
    aarch64) echo gcc-aarch64-linux-gnu libc6-dev-arm64-cross qemu-user ;;
    riscv64) echo gcc-riscv64-linux-gnu libc6-dev-riscv64-cross qemu-user ;;
    armhf) echo gcc-arm-linux-gnueabihf libc6-dev-armhf-cross qemu-user ;;
    cortex-m4 | cortex-m0plus) echo gcc-arm-none-eabi libnewlib-arm-none-eabi qemu-system-arm ;;
    rv32) echo gcc-riscv64-unknown-elf picolibc-riscv64-unknown-elf qemu-system-misc ;;
    esac
}

# program TARGET SOURCE FILE, and run TARGET FILE [WORD...]; the words are qemu's.
program() { $(compiler "$1") -std=gnu11 -Wall -Wextra -Werror -O2 -Ihost/include "$2" -L"$out/$1" -lramsummer -o "$3"; }
run() { timeout 300 $(runner "$1") "${@:2}" </dev/null; }

# Whether a target's programs can be built and run here; else what is left out, and the packages that it needs.
able() {
    local what="the tests on $1 (Debian: $(packages "$1"))" empty=$out/$1/empty tool
    for tool in "$(compiler "$1")" "$(runner "$1")"; do
        if [ -n "$tool" ]; then has "${tool%% *}" "$what" || return 1; fi
    done
    printf '#include <stdio.h>\nint main(void) { return 0; }\n' >"$empty.c"
    if program "$1" "$empty.c" "$empty" && run "$1" "$empty"; then return 0; fi >/dev/null 2>&1
    left_out+=("a program for $1 is not built or does not run: left out $what")
    return 1
}

# holds TARGET SOURCE [EXPECTED]: the program ends well, and prints what this file has, or nothing.
holds() {
    local file=$out/$1/$(basename "$2" .c)
    program "$1" "$2" "$file"
    run "$1" "$file" >"$file.out" || echo "it ends with $?" >>"$file.out"
    diff -u "${3:-/dev/null}" "$file.out" || fail "$2 does something else on $1"
}

# Whether a target has POSIX threads: a board without an operating system has none.
threads() { case $1 in cortex-* | rv32) return 1 ;; esac; }

test_on() {
    local example
    for example in host/examples/*.c; do
        if [ "$example" != host/examples/threads.c ] || threads "$1"; then holds "$1" "$example" "${example%.c}.out"; fi
    done
    holds "$1" host/tests/wide.c
    holds "$1" host/tests/site.c
    holds "$1" tests/cross/walk.c tests/cross/walk.out
    echo "$1: the C examples, wide.c and site.c of host/tests and tests/cross/walk.c do as they should ($(head -n 1 tests/cross/walk.out))"
}
