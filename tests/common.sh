# Read by the scripts that link libpine_c.a, at the repository's root, with script set to their own path there.

# where the caller says, or where `make lib` writes it
archive=${PINE_LIB_DIR:-build}/libpine_c.a

stop() {
    echo "$script: $1" >&2
    exit 1
}

# the comment at the script's head
usage() { sed -n '1d; /^#/!q; s/^# \{0,1\}//p' "$script"; }

bad_usage() {
    echo "$script: $1" >&2
    usage >&2
    exit 2
}

# need COMMAND [PACKAGE]
need() {
    command -v "$1" >/dev/null || stop "no $1 here: install it (on Debian or Ubuntu: apt install ${2:-$1})"
}

# begin FOLDER: the archive is there, and FOLDER, to build in
begin() {
    [ -f "$archive" ] || stop "$archive is missing: run 'make lib' first, or set PINE_LIB_DIR to the folder that has it"
    mkdir -p "$1" || exit 1
}
