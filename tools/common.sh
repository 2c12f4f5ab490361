# shellcheck shell=bash
# What the scripts share. A script sources it, and then stands in the repository's root, wherever it was called from.
set -euo pipefail
self=$(basename "$0")
caller=$PWD
root=$(dirname "$(dirname "$(readlink -f "${BASH_SOURCE[0]}")")")
script=$(readlink -f "$0")
cd "$root"

tell() { echo "$self: $*" >&2; }
fail() { tell "$@"; exit 1; }
misuse() { tell "$*; --help says more"; exit 2; }

# The comment at the head of the script.
usage() { awk 'NR > 1 { if (!/^#/) exit; sub(/^# ?/, ""); print }' "$script"; }

# A file's name as the script's caller means it.
from_caller() { case $1 in /*) echo "$1" ;; *) echo "$caller/$1" ;; esac; }

# Stops unless the file can be read.
readable() { # FILE [NAME]
    local name=${2:-$1}
    [ -e "$1" ] || fail "there is no $name"
    [ ! -d "$1" ] || fail "$name is a directory"
    [ -r "$1" ] || fail "$name can't be read"
}

# Names all packages that are missing, and stops then.
need() { # PROGRAM=PACKAGE.., FILE=PACKAGE..
    local pair missing=
    for pair in "$@"; do [ -e "${pair%%=*}" ] || command -v "${pair%%=*}" > /dev/null || missing+=" ${pair#*=}"; done
    [ -z "$missing" ] || { tell "not installed:$missing; on Debian: apt-get install$missing"; exit 2; }
}

natural() { # WORD WHAT
    [[ $1 =~ ^[0-9]{1,18}$ ]] || misuse "'$1' is no $2: a number is needed"
}

# As for a number of cases: 0 would test nothing.
positive() { # WORD WHAT
    natural "$1" "$2"
    [ "$((10#$1))" -gt 0 ] || misuse "a $2 is 1 or more, not $1"
}

# Two scripts at once in one tree would build the same files of target/, and each would prove what the other proves. The
# lock is on crates.txt, which is always there; a script that is called by the one that holds it finds it held.
lock() {
    [ "${WRENCOBBLE_LOCKED:-}" != "$root" ] || return 0
    exec {held}< crates.txt
    flock --nonblock "$held" || { tell "waits for another script that proves in this tree"; flock "$held"; }
    export WRENCOBBLE_LOCKED=$root
}

unlock() {
    [ -n "${held:-}" ] || return 0
    exec {held}<&-
    held=
    unset WRENCOBBLE_LOCKED
}

# The crates of crates.txt that NAME.. are made of, themselves among them.
crates_of() { # NAME..
    awk -v wanted="$*" '
        function visit(name,    each, k, n) {
            if (seen[name]++ || !(name in needs)) return
            n = split(needs[name], each, " ")
            for (k = 1; k <= n; k++) visit(each[k])
            print name
        }
        /^[a-z]/ { name = $1; sub(/:$/, "", name); $1 = ""; needs[name] = $0 }
        END { n = split(wanted, names, " "); for (k = 1; k <= n; k++) visit(names[k]) }' crates.txt
}

# Says which crate is at hand, if it takes more than two seconds: as long as there is its log. (Nothing kills it: bash
# could take the signal for its own, right after the fork, and clean up.)
show_progress() { # LOG CRATE NUMBER OF
    local tenths
    [ -z "${held:-}" ] || exec {held}<&- # the lock is not the watcher's
    for ((tenths = 0; tenths < 20; tenths++)); do
        sleep 0.1 > /dev/null 2>&1
        [ -e "$1" ] || return 0
    done
    tell "proving $2 ($3 of $4 are proved)"
}

need_toolchain() {
    command -v rt > /dev/null || fail 'the Rattle toolchain is not installed: there is no rt'
}

# Proves a crate and what it is made of, the lowest first, and builds what it is.
prove() { # lib|run CRATE
    local below crate number=0
    need_toolchain
    lock
    mapfile -t below < <(crates_of "$2" | grep -vx "$2")
    for crate in "${below[@]}"; do
        prove_crate lib "$crate" "$number" $((${#below[@]} + 1))
        number=$((number + 1))
    done
    prove_crate "$1" "$2" "$number" $((number + 1))
}

# One crate, in its folder; what the toolchain printed is shown if it fails.
prove_crate() { # COMMAND CRATE NUMBER OF
    local log status=0
    log=$(mktemp)
    trap 'rm -f "$log"; exit 130' INT
    show_progress "$log" "${@:2}" &
    (cd "crates/$2" && rt "$1") < /dev/null > "$log" 2>&1 || status=$?
    [ "$status" = 0 ] || cat "$log" >&2
    rm -f "$log"
    trap - INT
    [ "$status" = 0 ] || fail "rt $1 failed in crates/$2"
}

# A file that is moved into place whole, with the time of now.
keep() { # FILE PLACE
    mkdir -p "$(dirname "$2")"
    cp "$1" "$2.$$"
    touch "$2.$$"
    mv "$2.$$" "$2"
}

# target/staticlib/libNAME.a
build_library() { # NAME
    prove lib "$1"
    keep "crates/$1/out/lib$1.a" "target/staticlib/lib$1.a"
}

# The same right after `rt ci` in a fresh tree, over the libraries that it has left (they have no stamp), so that these
# aren't proved once more. It fails, and builds nothing, where they aren't there.
build_library_over_ci() { # NAME
    local kit each log libraries=()
    kit=$(kit_folder)
    for each in $(crates_of "$1" | grep -vx "$1"); do
        [ -d "crates/$each/out/rlib/$each.rlib" ] && [ ! -e "crates/$each/out/rlib/stamp" ] || return
        libraries+=(--extern "$each=$root/crates/$each/out/rlib/$each.rlib")
    done
    log=$(cd "crates/$1" && "$kit/bin/rattle" build --crate-name "$1" src/lib.rt --crate-type staticlib \
        --extern "std=$kit/rlibs/std.rlib" -L "dependency=$kit/rlibs" "${libraries[@]}" \
        --antt-project "$kit/rattle/logic/antt-project.json" --logic-built "$kit/logic_built" \
        --toolchain "$kit/toolchain" -o "out/lib$1.a" 2>&1 < /dev/null) || { echo "$log" >&2; return 1; }
    keep "crates/$1/out/lib$1.a" "target/staticlib/lib$1.a"
}

# target/bin/NAME, a program that does nothing on an empty input: to build it is to run it.
build_program() { # NAME
    prove run "$1"
    keep "crates/$1/out/$1" "target/bin/$1"
}

is_current() { # FILE: it is there, and no source is newer
    [ -f "$1" ] && [ -z "$(find crates.txt crates -name out -prune -o \( -name '*.rt' -o -name '*.antt' \
        -o -name crates.txt \) -newer "$1" -print -quit)" ]
}

# The same, if it is not current. A script that waited for the lock may find it built.
library() { # NAME
    is_current "target/staticlib/lib$1.a" && return
    lock
    is_current "target/staticlib/lib$1.a" || build_library "$1"
}

program() { # NAME
    is_current "target/bin/$1" && return
    lock
    is_current "target/bin/$1" || build_program "$1"
}

# The folder of the toolchain.
kit_folder() {
    need_toolchain
    dirname "$(dirname "$(readlink -f "$(command -v rt)")")"
}

# Its own clang, which compiles what is proved.
kit_clang() {
    need_toolchain
    echo "$(kit_folder)/toolchain/bin/clang"
}

# A page with a table put between its markers, `<!-- NAME: .. -->` and `<!-- end of NAME -->`.
with_table() { # PAGE NAME TABLE
    { grep -q "^<!-- $2: .* -->$" "$1" && grep -qx "<!-- end of $2 -->" "$1"; } || fail "$1 has no place for $2"
    awk -v name="$2" -v table="$3" '
        $0 == "<!-- end of " name " -->" { inside = 0 }
        !inside { print }
        index($0, "<!-- " name ": ") == 1 { inside = 1; while ((getline line < table) > 0) print line }' "$1"
}

# The bytes of an object's or archive's sections, by what they hold.
section_sizes() { # FILE [CROSS]
    "${2-}size" -A "$1" | awk '
        /^\.text/ { text += $2 } /^\.s?rodata/ { constant += $2 } /^\.[st]?(data|bss)/ { data += $2 }
        END { printf "code %d bytes, constants %d bytes, data %d bytes\n", text, constant, data }'
}

# The names that an archive needs from outside.
needed_names() { # ARCHIVE [CROSS]
    "${2-}nm" -u "$1" | awk '$1 == "U" { print $2 }' | sort | xargs
}

# Stops where an object for RV64 has a wide multiplication, which LLVM makes of some products of halves.
no_wide_multiplication() { # OBJECT WHAT CROSS
    local found
    found=$("${3}objdump" -d --no-show-raw-insn "$1" | awk '
        /^[0-9a-f]+ <.*>:$/ { name = substr($2, 2, length($2) - 3) }
        $2 ~ /^mulh(u|su)?$/ && !seen[$2, name]++ { printf "%s%s in %s", sep, $2, name; sep = ", " }')
    [ -z "$found" ] || fail "$2 has a wide multiplication: $found"
}

# Stops unless an archive is what include/simplev.h says: it needs memset alone, and has code but no data.
self_contained() { # ARCHIVE [CROSS]
    local names sizes
    names=$(needed_names "$@")
    [ "$names" = memset ] || fail "$1 needs more from outside than memset, or less: $names"
    sizes=$(section_sizes "$@")
    [[ $sizes = 'code '[1-9]*', data 0 bytes' ]] || fail "$1 has data of its own, or no code: $sizes"
}
