# What the scripts here share: the kit, and the kit again, of links, so that one of its tools can keep
# what the toolchain removes. `c/Makefile` reads the times too.

# How long it takes, as messages say it: to make something unproved, and to prove it.
time_unproved='about a minute'
time_proved='up to an hour on four cores'

# The folder of the kit.
find_kit() {
    if ! type rt > /dev/null 2>&1; then
        echo "irig: no command rt on the PATH; it comes with the Rattle kit, and builds what is missing" >&2
        return 1
    fi
    dirname "$(rt doc)"
}

# Links to what is in a folder, but for the names after it: `link_all FROM TO NAME..`.
link_all() {
    local from=$1 to=$2 path
    mkdir -p "$to"
    for path in "$from"/*; do
        [[ " ${*:3} " == *" ${path##*/} "* ]] || ln -s "$path" "$to"
    done
}

# The kit's tools, but one of them is the script of the standard input: `make_toolchain KIT TO TOOL`.
make_toolchain() {
    local from=$1/toolchain to=$2 tool=$3
    link_all "$from" "$to" bin
    link_all "$from/bin" "$to/bin" "$tool"
    cat > "$to/bin/$tool"
    chmod +x "$to/bin/$tool"
}

# The same with `rt` and all else: `make_kit KIT TO TOOL`. To `rt try` the kit's `rattle` gives no more
# than hints, and takes as long again, so it does nothing here.
make_kit() {
    local from=$1 to=$2 tool=$3
    link_all "$from" "$to" bin toolchain
    link_all "$from/bin" "$to/bin" rattle rt rtlib.py
    cp "$from"/bin/{rt,rtlib.py} "$to/bin"
    ln -s "$(type -P true)" "$to/bin/rattle"
    make_toolchain "$from" "$to/toolchain" "$tool"
}

# Keeps the module that `rt try` makes of a program, which tests each sum, index and cast as it runs:
# `keep_module KIT CRATE ROOM` leaves ROOM/module.bc. Where none came, ROOM/told says why; it ends with
# 1 if a source was refused, and else with 2. Of the two modules that `rt try` compiles, the program is
# the one with the sanitizer.
keep_module() {
    local kit=$1 crate=$2 room=$3 status=0
    make_kit "$kit" "$room/kit" clang << END
#!/usr/bin/env bash
[[ " \$* " == *' -fsanitize=address '* ]] || exec "$kit/toolchain/bin/clang" "\$@"
cp module.bc "$room/module.part" && mv "$room/module.part" "$room/module.bc"
exit 1
END
    (cd "$crate" && "$room/kit/bin/rt" try --steps 1 < /dev/null) > "$room/told" 2>&1 || status=$?
    [[ ! -e $room/module.bc ]] || return 0
    return $((status == 1 ? 1 : 2))
}

# Compiles such a module, or its text, without the sanitizer: `compile_module KIT MODULE OUT WORD..`. Where
# a test fails, the program ends by an illegal instruction.
compile_module() {
    "$1/toolchain/bin/clang" --no-default-config -no-canonical-prefixes --target=x86_64-unknown-linux-gnu \
        -ffunction-sections -fdata-sections -mllvm -trap-unreachable "${@:4}" -x ir "$2" -o "$3"
}
