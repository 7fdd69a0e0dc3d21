# Packages of suites of Debian that this system need not be of: they are fetched and unpacked into a folder, and nothing is installed.
#
# A script sources this, has a function `fail` that ends it with one line, and calls
#
#     debian_begin ROOM SUITE..             gets the suites' lists of packages, with ROOM for apt's own files
#     debian_unpack FOLDER PATTERN NAME..   unpacks these packages, and all that they need whose names have the pattern, of the newest of these suites
#     debian_fetch FOLDER NAME..            puts the packages themselves into FOLDER, without what they need
#
# The mirror is the one that this system's own package sources name. It needs apt and dpkg, and no rights.
# shellcheck shell=bash

# the words of apt for lists and settings of its own
debian_words=()
debian_room=

# The mirror of Debian that this system's own package sources name.
debian_mirror() {
    {
        sed -nE 's/^URIs:[[:space:]]*([^[:space:]]*debian)\/?([[:space:]].*)?$/\1/p' /etc/apt/sources.list.d/*.sources
        sed -nE 's/^deb([[:space:]]+\[[^]]*\])?[[:space:]]+([^[:space:]]*\/debian)\/?[[:space:]].*/\2/p' /etc/apt/sources.list /etc/apt/sources.list.d/*.list
    } 2> /dev/null | grep -v security | head -n 1
}

debian_begin() {
    local mirror suite
    debian_room=$1/debian
    shift
    command -v apt-get > /dev/null && command -v dpkg-deb > /dev/null || fail "this is no Debian: its packages cannot be had"
    mirror=$(debian_mirror || true)
    [[ -n $mirror ]] || fail "this system's package sources name no mirror of Debian"
    rm -rf "$debian_room"
    mkdir -p "$debian_room"/{sources,preferences,lists/partial,cache/archives/partial}
    for suite in "$@"; do
        printf 'Types: deb\nURIs: %s\nSuites: %s\nComponents: main\nSigned-By: /usr/share/keyrings/debian-archive-keyring.gpg\n' "$mirror" "$suite" \
            > "$debian_room/sources/$suite.sources"
        # backports are taken like any other
        printf 'Package: *\nPin: release n=%s\nPin-Priority: 500\n\n' "$suite" >> "$debian_room/preferences/all"
    done
    : > "$debian_room/status"
    debian_words=(-o "Dir::Etc::sourcelist=/dev/null" -o "Dir::Etc::sourceparts=$debian_room/sources" -o "Dir::Etc::preferencesparts=$debian_room/preferences"
        -o "Dir::Etc::preferences=/dev/null" -o "Dir::State::lists=$debian_room/lists" -o "Dir::Cache=$debian_room/cache"
        -o "Dir::State::status=$debian_room/status" -o "APT::Sandbox::User=$(id -un)" -o "Acquire::Retries=3")
    apt-get "${debian_words[@]}" -qq update > "$debian_room/log" 2>&1 || fail "the lists of packages of $* cannot be had: $(tail -n 1 "$debian_room/log")"
}

debian_fetch() {
    local folder=$1
    shift
    mkdir -p "$folder"
    (cd "$folder" && apt-get "${debian_words[@]}" -qq download "$@") > "$debian_room/log" 2>&1 ||
        fail "packages cannot be fetched: $(tail -n 1 "$debian_room/log")"
}

debian_unpack() {
    local folder=$1 pattern=$2 package names
    shift 2
    apt-get "${debian_words[@]}" -y -s --no-install-recommends install "$@" > "$debian_room/plan" 2> "$debian_room/log" ||
        fail "packages cannot be had: $(tail -n 1 "$debian_room/log")"
    mapfile -t names < <(sed -nE 's/^Inst ([^ ]+) \(([^ ]+) .*/\1=\2/p' "$debian_room/plan" | grep -E "$pattern")
    debian_fetch "$debian_room/packages" "${names[@]}"
    mkdir -p "$folder"
    for package in "$debian_room"/packages/*.deb; do
        dpkg-deb -x "$package" "$folder"
        rm "$package"
    done
}
