# shellcheck shell=bash
# Read by prove.sh and edits.sh, at the top of the repository: which crates there are, and a copy of some of them for `rt ci` to work on.

# The crates, each with the libraries that it uses; and those that are wanted.
declare -A uses=() wanted=()
while IFS=: read -r name libraries; do
    [[ $name =~ ^[a-z_]+$ ]] && uses[$name]=$libraries
done < crates.txt

# Marks a crate as wanted, and those that it depends on.
want() {
    local library
    [[ -v uses[$1] && ! -v wanted[$1] ]] || return 0
    wanted[$1]=1
    for library in ${uses[$1]}; do
        want "$library"
    done
}

# Copies the crates that are wanted, without tests and edits, to a new folder.
copy_wanted() {
    local name part
    mkdir -p "$1/crates"
    cp HANDLES "$1"
    for name in "${!wanted[@]}"; do
        echo "$name:${uses[$name]}" >> "$1/crates.txt"
        mkdir "$1/crates/$name"
        for part in src specs proofs args status stdin stdout data; do
            [ ! -e "crates/$name/$part" ] || cp -r "crates/$name/$part" "$1/crates/$name"
        done
    done
    git init -q "$1"
}
