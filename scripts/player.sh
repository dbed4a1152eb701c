# The player of scripts, target/bin/replay: what ./build and ./run share to make it. Sourced after common.sh.
# shellcheck shell=sh
# shellcheck disable=SC2154,SC2034 # place, of common.sh; why, for the caller

cc=${CC:-cc}

need_cc() {
    command -v "$cc" >/dev/null || fail "no C compiler '$cc': install one, or name it by CC"
}

# What is made of a crate and with it: the tools, the crate, and the other files named. rt's stamp of a crate that it stands on tells that crate's files
# and all below it; rt leaves none where a file changed meanwhile, and then nothing counts as unchanged.
inputs() {
    top=$1
    shift
    rt version
    "$cc" --version
    cat "$@"
    grep "^${top}[ :]" crates.txt
    find "crates/$top" -path "crates/$top/out" -prune -o -type f -exec sha256sum {} + | sort
    for crate in $(below "$top"); do echo "$crate $(cat "crates/$crate/out/rlib/stamp" 2>/dev/null || date +%s)"; done
}

player_files() {
    sha256sum target/bin/replay 2>&1
}

# Proves the player and builds it, unless it is there and of the same inputs. Where that fails, none is left, and `why` says what failed.
make_player() {
    why="the player can't be written"
    say "proving what the player stands on: about four minutes on two cores from nothing, seconds where nothing has changed"
    # shellcheck disable=SC2046 # a list of crates
    prove $(below replay_c) || not_proved_player || return
    inputs replay_c scripts/player.sh programs/replay.c | sha256sum >"$place/inputs"
    player_files >"$place/outputs"
    if cat "$place/inputs" "$place/outputs" | cmp -s - target/bin/replay.stamp; then
        say "the player is unchanged"
        return 0
    fi
    say "proving and compiling the player"
    rm -f target/bin/replay target/bin/replay.stamp
    make_crate replay_c || not_proved_player || return
    mkdir -p target/bin
    # What Rattle's library asks of the system beyond the C library is the kit's.
    kit=$(dirname "$(rt doc)")
    "$cc" -std=c99 -O2 -Wall -Wextra -Wpedantic -Werror programs/replay.c crates/replay_c/out/libreplay_c.a "$kit/c/libos_c.a" -o target/bin/replay ||
        no_player "programs/replay.c does not compile, or does not link" || return
    player_files >"$place/outputs"
    cat "$place/inputs" "$place/outputs" >target/bin/replay.stamp
}

not_proved_player() {
    said_by_rt
    no_player "the player is not proved, so it is not built (the whole of it is in target/log/$bad.out)"
}

no_player() {
    why=$1
    rm -f target/bin/replay target/bin/replay.stamp
    return 1
}
