# build.sh: how the scripts build with rt what users have. A script that reads it (`. tools/build.sh`) stands in the repository's folder and has a function `say`,
# which is told each crate that rt begins with. Each build ends with 1 where it fails, and FILE has all that rt said.

# The crates that rt's output is about, one a line, as it comes.
crates_named() {
    sed -un 's/^rt: chose --jobs [0-9]* for \([a-z0-9_]*\)$/\1/p; s/^rt: \([a-z0-9_]*\): begins with .*/\1/p; s/^checked \([a-z0-9_]*\)::.*/\1/p'
}

say_each_once() {
    local name said=''
    while read -r name; do
        [ "$name" = "$said" ] || say "proving $name"
        said="$name"
    done
}

# Runs a command of rt in a crate's folder, without input.
rt_in() ( # CRATE COMMAND FILE
    set -o pipefail
    (cd "crates/$1" && rt "$2") </dev/null 2>&1 | tee "$3" | crates_named | say_each_once
)

# A copy that takes the place of what is there, even of a program that runs.
copy() { # FROM FOLDER
    mkdir -p "$2" && cp --remove-destination "$1" "$2/"
}

# The static library, proofs and all: target/staticlib/libberth.a.
build_library() { # FILE
    rt_in berth lib "$1" && copy crates/berth/out/libberth.a target/staticlib
}

# The sheet program, proofs and all: target/bin/berthsheet. rt builds a program by running it, here on no commands.
build_program() { # FILE
    rt_in berthsheet run "$1" && copy crates/berthsheet/out/berthsheet target/bin
}
