# For the scripts that need a Debian package. need PROBE PACKAGE..: whether the command PROBE succeeds. Where it does not and this runs as root,
# the packages are installed and it is tried again.
need() {
    probe=$1
    shift
    $probe >/dev/null 2>&1 && return 0
    [ "$(id -u)" = 0 ] && command -v apt-get >/dev/null || return 1
    export DEBIAN_FRONTEND=noninteractive
    timeout 900 apt-get install -y --no-install-recommends "$@" >/dev/null 2>&1 ||
        { timeout 300 apt-get update >/dev/null 2>&1 && timeout 900 apt-get install -y --no-install-recommends "$@" >/dev/null 2>&1; } ||
        return 1
    $probe >/dev/null 2>&1
}

# Whether a compiler makes a program of a line of C, its standard header included.
compiles() {
    printf '#include <stdio.h>\nint main(void) { return puts("") == EOF; }\n' | "$@" - -o /dev/null
}

# The tools of the Rattle kit, found from where rt stands.
tools=$(dirname "$(dirname "$(readlink -f "$(command -v rt)")")")/toolchain/bin

# quietly COMMAND..: runs it, and shows what it wrote only where it fails.
quietly() {
    log=$(mktemp)
    if ! "$@" >"$log" 2>&1; then
        cat "$log"
        rm -f "$log"
        return 1
    fi
    rm -f "$log"
}
