# What ./run, ./test and ./build share. Each sources it at the top of the checkout, with its own name in `me`.
# shellcheck shell=sh
# shellcheck disable=SC2154 # me, here

place=   # a temporary folder, once `enter` has made it
running= # not empty while a command of `lead` or `make_crate` runs; then $! is its process group

say() {
    echo "$me: $1" >&2
}

fail() {
    say "$1"
    exit 1
}

# A path as the caller named it: from where the caller stands, which is in `here`.
from_here() {
    case $1 in '' | /*) printf '%s\n' "$1" ;; *) printf '%s\n' "$here/$1" ;; esac
}

# The comment at the top of a script is its help.
help() {
    sed -n '2,/^[^#]/s/^# \{0,1\}//p' "$me"
    exit 0
}

# The kit of the toolchain is named in README.md and nowhere else.
need_rt() {
    # shellcheck disable=SC2016 # backquotes of the text
    kit=$(sed -n 's/.*`\(rattle-kit-[^`]*\)`.*/\1/p' README.md | head -n 1)
    [ -n "$kit" ] || fail "README.md names no kit of the Rattle toolchain"
    command -v rt >/dev/null || fail "no rt on the path: install the Rattle toolchain, $kit (README.md says where it comes from)"
    version=$(rt version 2>/dev/null) || fail "rt version fails: the Rattle toolchain, $kit, is not whole"
    [ "${version%% *}" = "$kit" ] || fail "rt is of another kit: the proofs are written for $kit, and rt version says '$version'"
}

# Everything that is made stands below target/ and, where rt makes it, in out/ of each crate.
need_target() {
    # shellcheck disable=SC2015 # any of the three may fail
    mkdir -p target 2>/dev/null && probe=$(mktemp target/.probe.XXXXXX 2>/dev/null) && rm -f "$probe" || fail "can't write to $(pwd)/target"
    for folder in target/*/; do
        [ ! -d "$folder" ] || [ -w "$folder" ] || fail "can't write to $(pwd)/$folder"
    done
}

# Makes the temporary folder, also for what is run from here. Whatever stops the script, it ends what it runs and removes the folder.
enter() {
    trap leave EXIT
    trap 'stop 129' HUP
    trap 'stop 130' INT
    trap 'stop 131' QUIT
    trap 'stop 141' PIPE
    trap 'stop 143' TERM
    command -v setsid >/dev/null || fail "no setsid: install util-linux"
    place=$(mktemp -d) || fail "can't make a temporary folder in ${TMPDIR:-/tmp}"
    # Where root runs rt, programs run as nobody in a folder below this one.
    chmod 711 "$place"
    TMPDIR=$place
    export TMPDIR
}

leave() {
    [ -z "$place" ] || rm -rf "$place"
}

stop() {
    # PIPE too: nobody may be there to read what is said below.
    trap '' HUP INT QUIT PIPE TERM
    if [ -n "$running" ]; then
        # Just after its start it may have no group of its own yet.
        kill -s TERM -- "-$!" 2>/dev/null || kill -s TERM "$!" 2>/dev/null
        wait "$!" 2>/dev/null
        tries=0
        while alive "$!" && [ "$tries" -lt 100 ]; do
            sleep 0.1
            tries=$((tries + 1))
        done
        kill -s KILL -- "-$!" 2>/dev/null
    fi
    say "interrupted"
    exit "$1"
}

# Whether a process group has a process that has not ended. Ended ones may stay listed (state Z) until somebody asks for their status.
alive() {
    cat /proc/[0-9]*/stat 2>/dev/null | awk -v group="$1" '{ sub(/.*\) /, "") } $3 == group && $1 != "Z" { found = 1 } END { exit !found }'
}

# Runs a command in a process group of its own, by which `stop` reaches all that it starts. A signal ends the wait at once.
lead() {
    running=yes
    setsid "$@" &
    wait "$!"
    code=$?
    running=
    return "$code"
}

# The crates of the repository that these stand on, from the lowest up, each before those above it, and these last. crates.txt names them.
with_below() {
    awk -v names="$*" '
        function visit(name,   n, i, list) {
            if (!(name in below) || name in seen) return
            seen[name]
            n = split(below[name], list, " ")
            for (i = 1; i <= n; i++) visit(list[i])
            print name
        }
        { sub(/#.*/, "") }
        split($0, side, ":") == 2 { split(side[1], word, " "); below[word[1]] = side[2] }
        END { n = split(names, top, " "); for (i = 1; i <= n; i++) visit(top[i]) }' crates.txt
}

# The crates of the repository that a crate names in crates.txt.
below() {
    # shellcheck disable=SC2013 # words
    for crate in $(sed -n "s/^$1\( [^:]*\)\{0,1\}://p" crates.txt); do [ ! -d "crates/$crate" ] || echo "$crate"; done
}

# Proves crates and what they stand on, the lowest first, and says what goes on. The status is rt's where it fails, and then `bad` names the crate.
prove() {
    unchanged=0
    # shellcheck disable=SC2046 # a list of crates
    each $(with_below "$@")
    code=$?
    [ "$unchanged" = 0 ] || say "crates unchanged since they were proved: $unchanged"
    return "$code"
}

each() {
    for crate; do make_crate "$crate" || return; done
}

# Proves a crate whose libraries are proved, and makes of it what it is: a library for the crates above it, crates/NAME/out/libNAME.a, or the program
# crates/NAME/out/NAME. What rt says is in target/log/NAME.out.
make_crate() {
    bad=$1
    verb=lib
    [ ! -f "crates/$1/src/main.rt" ] || verb=run
    mkdir -p target/log
    log=$(pwd)/target/log/$1.out
    rm -f "$log" "$place/rt.status"
    told=
    quiet=$(date +%s)
    since=$quiet
    running=yes
    # A program is run, too, with nothing to read.
    # shellcheck disable=SC2016 # the inner shell's words
    setsid sh -c 'cd "crates/$1" && rt "$2" </dev/null >"$3" 2>&1; echo "$?" >"$4"' make_crate "$1" "$verb" "$log" "$place/rt.status" &
    while [ ! -s "$place/rt.status" ] && kill -s 0 "$!" 2>/dev/null; do
        if [ -z "$told" ]; then sleep 0.05; else sleep 0.5; fi
        tell "$1"
    done
    wait "$!"
    running=
    code=$(cat "$place/rt.status" 2>/dev/null || echo 2)
    # How the program ends does not matter here, but that it was built.
    [ "$verb" = lib ] || ! grep -q '^rt: running out/' "$log" || code=0
    if [ "$code" != 0 ]; then
        report "$1 NOT PROVED (rt $verb ended with status $code; what it said is in target/log/$1.out)"
    elif [ ! -s "$log" ] || grep -q '^rt: nothing has changed since' "$log"; then
        unchanged=$((unchanged + 1))
    else
        [ -n "$told" ] || announce "$1"
        report "$1 proved ($(($(date +%s) - since)) s)"
    fi
    return "$code"
}

# Says that a crate is being proved, once it is seen that this takes time, and then every half a minute.
tell() {
    now=$(date +%s)
    if [ -z "$told" ]; then
        [ $((now - since)) -lt 4 ] || announce "$1"
    elif [ $((now - quiet)) -ge 30 ]; then
        report "still proving $1, $((now - since)) s so far"
    fi
}

# scripts/crates.tsv has for each crate how long its proof takes and what it is.
announce() {
    told=yes
    report "proving $1$(awk -F '\t' -v name="$1" '$1 == name { print ": " $3 " (about " $2 " s)" }' scripts/crates.tsv)"
}

report() {
    say "$1"
    quiet=$(date +%s)
}

# What rt said of the crate that failed, but for what is proved.
said_by_rt() {
    grep -Ev ': proved$|^(rt: chose|logic|statements|library|axioms|only=) ' "target/log/$bad.out" | tail -n 40 >&2
}
