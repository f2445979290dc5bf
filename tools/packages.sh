# Sourced by the commands that install what they need: Debian packages, where they are missing. The name of the command is in $command.

as_root() {
    if [ "$(id -u)" = 0 ]; then "$@"; else sudo "$@"; fi
}

is_installed() {
    [ "$(dpkg-query -W -f='${Status}' "$1" 2>/dev/null)" = "install ok installed" ]
}

# apt-get's words are only of use where it fails.
apt_get() {
    local log status=0
    log=$(mktemp)
    as_root env DEBIAN_FRONTEND=noninteractive apt-get -y --no-install-recommends "$@" >"$log" 2>&1 || status=$?
    if [ "$status" != 0 ]; then tail -n 5 "$log" >&2; fi
    rm -f "$log"
    return "$status"
}

# install PACKAGE..: those that are missing; tried three times, since a new machine's package list may be old or the network slow. The last
# try takes them one by one, so that one that can't be had is named and the others are there.
install() {
    local try package missing failed=0
    for try in 1 2 3; do
        missing=()
        for package; do is_installed "$package" || missing+=("$package"); done
        if [ ${#missing[@]} = 0 ]; then return 0; fi
        echo "$command: installing ${missing[*]}"
        apt_get update || true # what is known already may do
        if apt_get install "${missing[@]}"; then return 0; fi
        sleep $((5 * try))
    done
    for package in "${missing[@]}"; do
        if ! apt_get install "$package"; then
            echo "$command: cannot install the package $package"
            failed=1
        fi
    done
    return "$failed"
}
