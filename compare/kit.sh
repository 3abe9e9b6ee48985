# For the scripts to source: where the kit's tools are, and how crates are proved, programs built and C linked with it.
if ! command -v rt >/dev/null; then
    echo "$0 needs the Rattle kit: there is no rt on the path" >&2
    exit 1
fi
if [ "$(uname -m)" != x86_64 ]; then
    echo "$0 needs the Rattle kit, which runs on x86-64 alone: this machine is $(uname -m)" >&2
    exit 1
fi
kit=$(dirname "$(dirname "$(readlink -f "$(command -v rt)")")")
tools=$kit/toolchain

# rt proves and builds a crate in its folder.
in_crate() { # NAME COMMAND [WORD..]
    local name=$1
    shift
    (cd "crates/$name" && "$@")
}

# Whether a file or folder is newer than all that crates are made of. What rt keeps in out/ is not among it.
is_newest() { # FILE
    [ -e "$1" ] && [ -z "$(find crates crates.txt -path 'crates/*/out' -prune -o \
        \( -name '*.rt' -o -name '*.antt' -o -name crates.txt \) -newer "$1" -print -quit)" ]
}

# Has what stands in a crate's out/ proved and built, where a source has changed since. It is as new as what it is made of was when its making began: also
# one that rt leaves as it is, which has been looked at all the same.
build() { # FILE COMMAND [WORD..]
    local file=$1 began
    shift
    began=$(date +%s.%N)
    if is_newest "$file"; then return; fi
    "$@" || return
    touch -d "@$began" "$file"
}

# Of what rt says on standard input, tells those who wait a line for each crate that is proved, and where it waits itself.
told() {
    sed -u -n -E -e '/^crate [a-z0-9_]+: /h' -e '/^logic=proved /{x;s/^crate ([a-z0-9_]+): .*/\1 proved/p}' -e '/^rt: .*waiting/p' >&2 || true
}

# A program, which rt runs once, on what its crate's file stdin holds. `rt ci` leaves those that it built in the same place.
program_of() { # NAME
    echo "crates/$1/out/$1"
}
build_program() { # NAME
    local given=crates/$1/stdin
    if [ ! -f "$given" ]; then given=/dev/null; fi
    build "$(program_of "$1")" in_crate "$1" rt run <"$given" >/dev/null
}

# A static library, for x86-64 or for the machine that is named.
library_of() { # NAME
    echo "crates/$1/out/lib$1.a"
}
build_library() { # NAME [MACHINE]
    local command=(in_crate "$1" rt lib)
    if are_left_by_ci "$1"; then command=(compile_library "$1"); fi
    build "$(library_of "$1")" "${command[@]}" ${2:+"--target=$2-unknown-linux-gnu"}
}

# The libraries of the repository below some crates, and whether all are those that `rt ci` left, which have no stamp of rt's other commands: `rt lib` would
# build them anew. A crate above can be handed to rattle as rt hands it over, and is then all that is proved again.
below() { # NAME..
    awk -v names="$*" '
        { sub(/#.*/, "") }
        match($0, /^[a-z0-9_]+/) { on[substr($0, 1, RLENGTH)] = substr($0, index($0 ":", ":") + 1) }
        function walk(name,    list, count, k) {
            count = split(on[name], list, " ")
            for (k = 1; k <= count; k++) if (list[k] in on && !seen[list[k]]++) { walk(list[k]); print list[k] }
        }
        END { count = split(names, name, " "); for (k = 1; k <= count; k++) walk(name[k]) }' crates.txt
}
are_left_by_ci() { # NAME..
    local name
    for name in $(below "$@"); do
        if [ -e "crates/$name/out/rlib/stamp" ]; then return 1; fi
        is_newest "crates/$name/out/rlib/$name.rlib" || return
    done
}
compile_library() { # NAME [FLAG..]
    local crate=$1 name words=(--crate-name "$1" src/lib.rt --extern "std=$kit/rlibs/std.rlib" -L "dependency=$kit/rlibs")
    shift
    for name in $(below "$crate"); do
        if grep -qE "^$crate( staticlib)?:([^#]* )?$name( |$)" crates.txt; then words+=(--extern "$name=../$name/out/rlib/$name.rlib"); fi
        words+=(-L "dependency=../$name/out/rlib")
    done
    words+=(--antt-project "$kit/rattle/logic/antt-project.json" --logic-built "$kit/logic_built" --links "$crate=" --crate-type staticlib)
    mkdir -p "crates/$crate/out"
    in_crate "$crate" "$kit/bin/rattle" build "${words[@]}" --toolchain "$tools" --backend llvm "$@" -o "out/lib$crate.a"
}

# Copies what rt reads of the repository, without what it keeps there. A copy stands outside of it, since rt ci reads every folder at or below its own.
copy_repository() { # FOLDER
    local handles=()
    if [ -e HANDLES ]; then handles=(HANDLES); fi
    tar -c --exclude='crates/*/out' crates crates.txt "${handles[@]}" | tar -x -C "$1"
}

# What `rt ci` says of some crates and of their edits in must-fail/ or in wrong/, which then stand in the others' place in a copy: rt knows of no other
# folder. The edits count only where their crate is proved. What rt ci proved or tried of the same files on this machine it doesn't do again.
try_edits() ( # must-fail | wrong, CRATE..
    edits=$1
    shift
    work=$(mktemp -d)
    trap 'rm -rf "$work"' EXIT
    copy_repository "$work" || exit
    cd "$work" || exit
    mkdir edits
    for crate; do if [ -d "crates/$crate/$edits" ]; then mv "crates/$crate/$edits" "edits/$crate"; fi; done
    rm -rf crates/*/must-fail
    for crate; do if [ -d "edits/$crate" ]; then mv "edits/$crate" "crates/$crate/must-fail"; fi; done
    rt ci "$@"
)

# A C program for x86-64, compiled and linked by the kit alone. It has no headers: of the C library's, what our sources include.
build_c() { # PROGRAM SOURCE ARCHIVE [WORD..]
    local program=$1 source=$2 archive=$3 headers=target/headers
    shift 3
    mkdir -p "$headers"
    echo 'typedef __SIZE_TYPE__ size_t;' >"$headers/stddef.h"
    echo 'int printf(const char *, ...);' >"$headers/stdio.h"
    "$tools/bin/clang" --target=x86_64-unknown-linux-gnu -std=c11 -O2 -fPIC -nostdinc -isystem "$headers" -I bindings/c \
        -Wall -Wextra -pedantic -Werror "$@" -c "$source" -o "$program.o"
    quietly "$program.log" "$kit/bin/rattle-link" --target x86_64-unknown-linux-gnu --toolchain "$tools" \
        -o "$program" "$program.o" "$archive"
}

# What a command says matters only where it fails.
quietly() { # LOG COMMAND [WORD..]
    local log=$1
    shift
    "$@" >"$log" 2>&1 || {
        cat "$log"
        return 1
    }
}

# What is compared with must be what was proved against: the seven modules of EWEB_DOCS_SRC, and the documents where they stand above it, have the
# sums of compare/lent.sha256.
require_lent() {
    export EWEB_DOCS_SRC=${EWEB_DOCS_SRC:-../shared/docs/src}
    local sum file faults=0
    while read -r sum file; do
        if [ -f "$EWEB_DOCS_SRC/$file" ]; then
            [ "$sum" = "$(sha256sum <"$EWEB_DOCS_SRC/$file" | cut -d ' ' -f 1)" ] || {
                echo "$EWEB_DOCS_SRC/$file is not the file that this was proved against: its SHA-256 is not that of compare/lent.sha256"
                faults=1
            }
        elif [ "${file#../}" = "$file" ]; then
            echo "there is no $EWEB_DOCS_SRC/$file: EWEB_DOCS_SRC is to name rand_distr 0.6.0"
            faults=1
        else
            echo "$file was not lent with EWEB_DOCS_SRC: its SHA-256 was not compared"
        fi
    done <compare/lent.sha256
    return "$faults"
}

# rand_distr's modules as programs: `ask` answers requests, `answer` sheets, and `generate` makes both.
build_oracle() {
    local made=target/compare/oracle
    require_lent
    mkdir -p "$made"
    for job in test build; do
        CARGO_TARGET_DIR=$made quietly "$made.log" cargo "$job" --release --offline --manifest-path compare/oracle/Cargo.toml
    done
    ask=$made/release/ask
    answer=$made/release/answer
    generate=$made/release/generate
}

# The Rust's answers to the requests of standard input. The proved program doesn't say why one is unreadable.
rust_answers() {
    { "$ask" || true; } | sed 's/^unreadable .*/unreadable/'
}

# Answers to sheets, each on one line.
joined() {
    awk '/^answer=/ { if (NR > 1) print line; line = $0; next } { line = line " " $0 } END { print line }'
}

# So many of the requests in crates/test_calls/stdin, the last ones, are made by `generate`; those before them were written by hand.
recorded=3000

# Puts standard input in the place of what stands in FILE between the lines '<!-- NAME: written by SCRIPT -->' and
# '<!-- end of NAME -->'. Where that can't be done, or there is nothing to put, FILE stays as it is.
write_between() { # FILE NAME SCRIPT
    local file=$1 name=$2 script=$3 made
    made=$(mktemp "$file.XXXXXX") || return 1
    if cp -p "$file" "$made" && awk -v file="$file" -v first="<!-- $name: written by $script -->" -v last="<!-- end of $name -->" '
        function fault(what) { print file ": " what >"/dev/stderr"; faults++ }
        given { text = text $0 "\n"; next }
        $0 == last {
            if (!inside) fault("out of its place: " last)
            inside = 0
            ended = 1
        }
        !inside
        $0 == first {
            if (started++) fault("more than once: " first)
            printf "%s", text
            inside = 1
        }
        END {
            if (!started) fault("there is no line " first)
            if (!ended) fault("there is no line " last)
            if (text == "") fault("there is nothing to put after " first)
            exit faults > 0
        }' given=1 - given=0 "$file" >"$made"; then
        mv "$made" "$file"
    else
        rm -f "$made"
        return 1
    fi
}
