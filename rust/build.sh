# What the Rust side is built with: Debian's packages, a cargo that is new enough, the proved library. Sourced by ./kveldrim and
# .ci/run, which set `root` to the folder of the repository.

root=$(CDPATH='' cd -- "$root" && pwd)

# Debian's packages of the crates that rust/cli/Cargo.toml names.
crates="librust-clap-dev librust-clap-complete-dev librust-csv-dev librust-nix-dev librust-rustix-dev librust-serde-json-dev
    librust-sha2-dev librust-similar-dev librust-unicode-bidi-dev librust-unicode-width-dev librust-walkdir-dev librust-xattr-dev"

say() {
    echo "kveldrim: $*" >&2
}

fail() {
    say "$*"
    exit 2
}

# Those of the packages that are not installed.
missing() {
    for package; do
        status=$(dpkg-query -W -f '${db:Status-Status}' "$package" 2>/dev/null || true)
        if [ "$status" != installed ]; then echo "$package"; fi
    done
}

# Installs those of the packages that are missing, after a word about it. It takes none away, and tries three times.
install_packages() {
    packages=$(missing "$@" | tr '\n' ' ')
    if [ -z "$packages" ]; then return 0; fi
    if [ "$(id -u)" != 0 ] || ! command -v apt-get >/dev/null; then return 1; fi
    say "installing Debian's packages $packages"
    for pause in 5 20 0; do
        if { apt-get update && DEBIAN_FRONTEND=noninteractive apt-get install -y --no-install-recommends --no-remove $packages; } \
            >>"$log" 2>&1; then
            return 0
        fi
        sleep "$pause"
    done
    return 1
}

# Whether this cargo is there and is 1.85 or newer.
is_new_enough() {
    version=$("$1" --version 2>/dev/null) || return 1
    case $version in
    "cargo 1."*)
        minor=${version#cargo 1.}
        [ "${minor%%.*}" -ge 85 ] 2>/dev/null
        ;;
    "cargo "[2-9].*) ;;
    *) return 1 ;;
    esac
}

# Looks for a cargo that is new enough in the folders of the path.
look_for_cargo() {
    old_ifs=$IFS
    IFS=:
    for folder in $PATH; do
        cargo=$folder/cargo
        if is_new_enough "$cargo"; then break; fi
        cargo=
    done
    IFS=$old_ifs
    [ -n "$cargo" ]
}

# Finds a cargo that is new enough, or installs Debian's.
find_cargo() {
    if look_for_cargo; then return 0; fi
    # In Debian 12 the package `cargo` is too old, and there is a newer one.
    case $(sed -n 's/^VERSION_ID=//p' /etc/os-release) in
    '"12"') package=cargo-web ;;
    *) package=cargo ;;
    esac
    if install_packages "$package" && look_for_cargo; then return 0; fi
    have=$(cargo --version 2>/dev/null || echo "there is no cargo")
    fail "$have: cargo 1.85 or newer is needed (Debian 13: package cargo, Debian 12: package cargo-web)"
}

# Decides where crates come from: Debian's folder where its packages are there or can be installed, else where cargo finds them.
find_crates() {
    debian=yes
    if install_packages $crates; then return 0; fi
    debian=no
    say "crates come over the network, since these packages of Debian are missing:" $(missing $crates)
}

run_cargo() {
    if [ "$debian" = no ]; then
        "$cargo" "$@"
        return
    fi
    # Versions of another source may be locked.
    rm -f "$root/rust/Cargo.lock"
    "$cargo" --config "$root/rust/debian.toml" --offline "$@"
}

# Runs a command with its output in the log. On a terminal one line counts the lines of it that have this word.
run() {
    words=$1 word=$2 count=0
    shift 2
    { "$@" 2>&1 && echo "it is done" || echo "it has failed"; } | while IFS= read -r line; do
        printf '%s\n' "$line" >>"$log"
        case $line in
        *"$word "*)
            count=$((count + 1))
            if [ -t 2 ]; then printf '\rkveldrim: %s %s' "$count" "$words" >&2; fi
            ;;
        esac
    done
    if [ -t 2 ]; then echo >&2; fi
    [ "$(tail -n 1 "$log")" = "it is done" ]
}

# How many crates of this repository the library is made of.
count_crates() {
    total=0 seen='' names=kveldrim
    while [ -n "$names" ]; do
        below=''
        for name in $names; do
            case " $seen " in *" $name "*) continue ;; esac
            seen="$seen $name"
            if [ -d "$root/crates/$name" ]; then total=$((total + 1)); fi
            below="$below $(sed -n "s/^$name\( staticlib\)\{0,1\}://p" "$root/crates.txt")"
        done
        names=$below
    done
    echo "$total"
}

build_library() {
    library=$root/crates/kveldrim/out/libkveldrim.a
    # Beside the sources, `rt` keeps its own work in each crate's out/.
    if [ -f "$library" ] &&
        [ -z "$(find "$root/crates" "$root/crates.txt" -path "$root/crates/*/out" -prune -o -type f -newer "$library" -print -quit)" ]; then
        return 0
    fi
    command -v rt >/dev/null || fail "'rt' of the Rattle kit is needed to build the library and is not on the path"
    say "building the proved library, about 5 minutes on two processors (log: $log)"
    run "of $(count_crates) crates proved" logic=proved sh -c 'cd "$1" && rt lib' sh "$root/crates/kveldrim" ||
        fail "the library could not be built: see $log"
    touch "$library"
}

build_command() {
    find_cargo
    find_crates
    say "building the command, about a minute (log: $log)"
    run "crates compiled" Compiling run_cargo build --release --manifest-path "$root/rust/Cargo.toml" \
        --target-dir "$root/rust/target" --package kveldrim-cli || fail "the command could not be built: see $log"
    touch "$command"
}

# Builds the command and what it needs; one build at a time, and who comes second finds it done.
build() {
    log=$root/target/build.log
    if ! { mkdir -p "$root/target" "$root/rust/target" && touch "$log" && [ -w "$root/rust" ]; } 2>/dev/null; then
        fail "the command is not built, or older than its sources, and you may not write to $root: let its owner run ./kveldrim once"
    fi
    exec 9>"$root/target/build.lock"
    flock 9
    if ! is_built; then
        if [ -z "${KVELDRIM_LIB:-}" ]; then
            unset KVELDRIM_LIB
            build_library
        fi
        build_command
    fi
    exec 9>&-
}
