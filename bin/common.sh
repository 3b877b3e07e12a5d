# shellcheck shell=bash disable=SC2034,SC2154
# What the scripts of this repository share: one way to fail, to find the Rattle kit, to need or install a package, and to
# build alone. To be sourced by a bash script that has set 'speaker', the name under which it speaks, and 'failure', the
# exit status of a failure, unless that is 1.
#
# Sets 'root', the top of the repository.
root=$(cd "$(dirname "${BASH_SOURCE[0]}")/.." && pwd -P)

fail() { # WHY [STATUS]
    echo "$speaker: FAILED: $1" >&2
    exit "${2:-${failure:-1}}"
}

not_run() { echo "$speaker: not run on this machine: $1"; } # WHAT

need() { # COMMAND PACKAGE
    command -v "$1" >/dev/null || fail "$1 is not installed (Debian: apt-get install $2)"
}

need_rt() { command -v rt >/dev/null || fail "the Rattle toolchain (rt) is not installed"; }

# Installs a package of Debian's, never without saying so; false if that fails. A new machine may not know yet which
# packages there are.
install_package() { # PACKAGE [OPTION..]
    local said install=(timeout 300 apt-get -o DPkg::Lock::Timeout=120 install --yes "$@")
    echo "$speaker: installs the Debian package $1" >&2
    said=$("${install[@]}" 2>&1) || said=$({ timeout 300 apt-get update && "${install[@]}"; } 2>&1) || {
        echo "$speaker: the Debian package $1 could not be installed: $(tail -n 1 <<<"$said")" >&2
        return 1
    }
}

# Sets 'kit', 'tools', its toolchain, 'loader', which runs the kit's programs, and 'emulator', which is empty on x86-64:
# the kit and its programs are for that, and elsewhere run under an emulator of the machine's own.
find_kit() {
    local rt
    need_rt
    rt=$(readlink -f "$(command -v rt)")
    kit=${RATTLE_HOME:-${rt%/bin/rt}}
    tools=$kit/toolchain
    loader=$tools/lib/ld-linux-x86-64.so.2 emulator=''
    [[ -x $loader ]] || fail "the kit has no loader at $loader"
    [[ $(uname -m) != x86_64 ]] || return 0
    emulator=$(command -v qemu-x86_64-static || command -v qemu-x86_64) ||
        fail "there is no emulator for x86-64 (Debian: apt-get install qemu-user-static)"
}

# The independent model, as target/model/release/model.
build_model() {
    need cargo cargo
    cargo build --release --quiet --offline --manifest-path "$root/model/Cargo.toml" --target-dir "$root/target/model" ||
        fail "the model does not build"
}

# The files as they stand here, also what is not committed yet, but nothing that was built of them.
copy_files() { # FOLDER
    local path
    mkdir -p "$1" || return
    (
        cd "$root" || exit
        git ls-files -z --cached --others --exclude-standard | while IFS= read -rd '' path; do
            [[ ! -e $path ]] || printf '%s\0' "$path"
        done | tar --create --null --no-recursion --files-from=-
    ) | tar --extract --directory="$1"
}

# Waits until nobody else does this in this tree, and keeps others waiting until 'unlock', or until this script and all that
# it started have ended. The file does not stand in target/, which may be removed at any time. One that was removed meanwhile
# is nobody's.
lock() { # build|gate
    local file=$root/.lock-$1
    while :; do
        exec {lock_held}>>"$file" || fail "cannot write $file"
        if ! flock --nonblock "$lock_held"; then
            echo "$speaker: waits for another $1 in $root" >&2
            flock "$lock_held" || fail "cannot lock $file"
        fi
        [[ ! $file -ef /proc/self/fd/$lock_held ]] || return 0
        unlock
    done
}

unlock() { exec {lock_held}>&-; }
