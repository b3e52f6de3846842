# shellcheck shell=bash
# For ./sheet, ./replay and the scripts that run them many times; read with `source`, after `unset CDPATH`.
#
# A program is started only if rt passed it as it stands here: proved it from these sources, linked it and ran it, and it wrote
# what its crate's file `stdout` has. To ask rt takes seconds, so what it passed is kept in target/passed/NAME: a sum of the
# program, a sum of the sources. Dates and owners do not matter. A newer rt alone is not noticed: the gate proves anew.
root=$(cd "${BASH_SOURCE[0]%/*}" && pwd -P)

# The program, where rt links it. A program that rt did not link is none to it: rt keeps a sum of what it linked.
program() { echo "$root/crates/$1/out/$1"; } # NAME

# A sum of the names and contents of all that a check looks at.
sources() {
    (cd "$root" && find crates crates.txt \( -name must-fail -o -name out \) -prune -o -type f -exec sha256sum {} + | LC_ALL=C sort | sha256sum)
}

# A sum of the program, where it is there.
built() { # NAME
    [ -x "$(program "$1")" ] && sha256sum <"$(program "$1")"
}

# Whether rt passed the program as it stands.
good() { # NAME
    local kept now
    [ -f "$root/target/passed/$1" ] && kept=$(<"$root/target/passed/$1") && now=$(built "$1" && sources) && [ "$kept" = "$now" ]
}

# The first file or folder that rt would have to write and may not: in a crate's out/, or the crate's folder where out/ is to come.
barred() {
    local crate
    for crate in "$root"/crates/*/; do
        if [ -e "${crate}out" ]; then
            find -H "${crate}out" ! -type l ! -writable -print -quit 2>/dev/null || true
        elif [ ! -w "$crate" ]; then
            echo "${crate%/}"
        fi
    done
}

# Says so where nothing can be built here, and what to do.
able() { # NAME
    local bar
    bar=$(barred)
    if [ -n "$bar" ]; then
        echo "$1: the program is not known to be built from these sources, and you may not write ${bar%%$'\n'*}:" \
            "have somebody who may write there call ./$1 once, or copy the repository to a folder of your own" >&2
        return 1
    fi
    command -v rt >/dev/null && return
    echo "$1: the program is not known to be built from these sources, and 'rt', which builds it, is not there" >&2
    return 1
}

# Waits until nobody else builds here: another first call, or the gate. The lock is on the repository's folder, so that no file
# is needed for it. rt inherits it: what an interrupted check leaves running still writes. Where there is no flock, or none on
# this kind of disk, we go on without.
lock() { # WHO
    local status=0
    exec 9<"$root"
    flock -n 9 2>/dev/null || status=$?
    if [ "$status" != 1 ]; then return; fi
    echo "$1: waiting for another check in $root to end: a first call, or the gate" >&2
    flock 9 || true
}

# For all who inherited it, too.
unlock() {
    flock -u 9 2>/dev/null || true
    exec 9<&-
}

# Has rt prove, build and run the program, holds what it wrote to its file `stdout`, and keeps what passed; under the lock.
check() { # NAME
    local before after
    able "$1" || return
    echo "$1: proving and building the program; the first time this takes some minutes" >&2
    before=$(sources)
    if ! (set -o pipefail && cd "$root/crates/$1" && rt run <stdin | cmp - stdout) >&2 || ! after=$(built "$1"); then
        echo "$1: rt did not pass the program, or it does not write what crates/$1/stdout has: see above" >&2
        return 1
    fi
    (mkdir -p "$root/target/passed" && printf '%s\n' "$after" "$before" >"$root/target/passed/$1") 2>/dev/null ||
        echo "$1: rt passed the program, but target/passed/$1 could not be written: the next call asks rt again" >&2
}

# Proves and builds the program where rt has not passed it as it stands, and says so on standard error.
build() { # NAME
    local status=0
    if good "$1"; then return; fi
    lock "$1"
    if ! good "$1"; then check "$1" || status=1; fi
    unlock
    return "$status"
}

# The toolchain's folder, where rt says that its guide starts; none where rt names no absolute path.
kit_folder() {
    local guide
    guide=$(rt doc </dev/null 2>/dev/null) || return
    case $guide in /*/*) echo "${guide%/*}" ;; *) return 1 ;; esac
}

# Sets `command` to the words that run a built program. It is for x86-64: it runs with the toolchain's own C library, and
# on another processor with its emulator. Where that is not to be had, without either.
words() { # PROGRAM
    local kit
    command=()
    if kit=$(kit_folder); then kit=$kit/toolchain; fi
    if [ -n "$kit" ] && [ -x "$kit/bin/qemu-x86_64" ]; then command=("$kit/bin/qemu-x86_64"); fi
    if [ -n "$kit" ] && [ -x "$kit/lib/ld-linux-x86-64.so.2" ]; then
        command+=("$kit/lib/ld-linux-x86-64.so.2" --library-path "$kit/lib")
    fi
    command+=("$1")
}

# The program's input and output have to be there: bash would put its own files in a closed one's place, as it puts the
# script in standard error's.
ends() { # NAME
    if [ ! -e /dev/fd/2 ] || [ /dev/fd/2 -ef "$0" ]; then exec 2>/dev/null; fi
    if [ ! -e /dev/fd/0 ]; then echo "$1: standard input is closed: there is nothing to read" >&2; exit 1; fi
    if [ ! -e /dev/fd/1 ]; then echo "$1: standard output is closed: nothing can be written" >&2; exit 1; fi
}

# A program cannot set a status: where it said something on standard error, it has not done its work. Passes on what it said
# and ends with the status that it ended with, or 1.
settle() { # STATUS SAID
    if [ -z "$2" ]; then exit "$1"; fi
    printf '%s\n' "$2" >&2
    if [ "$1" = 0 ]; then exit 1; fi
    exit "$1"
}
