# For tests/viewer/run, behind tests/c/packages.sh. The viewer's tools write in the byte order of the machine that they run on, so a big-endian file
# of theirs takes a big-endian machine: Debian's own editcap for s390x, under an emulator for single programs.

# big_endian FOLDER: whether that editcap runs. Where it does not it is unpacked into the folder, with all that it needs.
big_endian() {
    need 'command -v qemu-s390x' qemu-user || return 1
    emulated "$1" && return 0
    command -v apt-get >/dev/null && unpack "$1" >/dev/null 2>&1 && emulated "$1"
}

emulated() {
    [ -x "$1/usr/bin/editcap" ] && qemu-s390x -L "$1" "$1/usr/bin/editcap" --version >/dev/null 2>&1
}

# apt-get gets lists, a cache and a state of its own, in which no package is installed: so it finds all that is needed, and what the system has, and
# knows of other architectures, stays as it is.
unpack() {
    local own=$1/apt package
    rm -rf "$1"
    mkdir -p "$own/lists/partial" "$own/archives/partial" "$1/usr/lib"
    # Where Debian has /lib in /usr, its packages leave out the link.
    ln -s usr/lib "$1/lib"
    : >"$own/status"
    apart=(-o APT::Architecture=s390x -o APT::Architectures=s390x -o Acquire::Languages=none
        -o "Dir::State=$own" -o "Dir::State::status=$own/status" -o "Dir::Cache=$own")
    timeout 300 apt-get "${apart[@]}" update || return 1
    timeout 900 apt-get "${apart[@]}" install -y --no-install-recommends --download-only wireshark-common || return 1
    for package in "$own"/archives/*.deb; do
        dpkg-deb -x "$package" "$1" || return 1
    done
    rm -rf "$own"
}
