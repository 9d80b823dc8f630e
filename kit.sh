# For report.sh and test.sh, which read this file: the tools that they need.

# needs TOOL...: each is on the path, or is named with what to install.
needs() {
    local tool missing=0
    for tool in "$@"; do
        command -v "$tool" > /dev/null && continue
        missing=1
        case $tool in
        rt) echo "rt is not on the path: install the Rattle kit ($(cat kit.txt)) and put its bin folder there" >&2 ;;
        cc) echo "cc is not on the path: install a C compiler" >&2 ;;
        cargo) echo "cargo is not on the path: install Rust, at least $(rust_version)" >&2 ;;
        esac
    done
    [ "$missing" -eq 0 ] || exit 2
}

rust_version() {
    sed -n 's/^rust-version = "\(.*\)"$/\1/p' rust/Cargo.toml
}

# same_kit: says so where the kit at hand is not the one that the repository was proved with.
same_kit() {
    local found
    found=$(rt version)
    [ "$found" = "$(cat kit.txt)" ] ||
        echo "another kit: this was proved with '$(cat kit.txt)', and here is '$found'" >&2
}
