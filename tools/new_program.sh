#!/usr/bin/env bash
# Makes a program of your own: a copy of crates/example under another name, which is proved as it is.
#
#     tools/new_program.sh NAME [FOLDER]
#
# It writes the folder crates/NAME, with NAME in its proofs, and a line in crates.txt. With FOLDER it does so in another repository, and
# copies there the six crates that a program stands on, with their lines, unless they are there. FOLDER is made if it isn't there.
#
# NAME is lowercase letters, digits and _, and begins with a letter. It may not name a crate there or a library of the kit, nor be a word
# of the language. If NAME or FOLDER is wrong, nothing is written. It needs rt.
set -eu
export LC_ALL=C
. "$(dirname "$0")/common.sh"
[ $# = 1 ] || [ $# = 2 ] || refuse 'wants the name of the program, and at most a folder'
[[ ${2-} != -* ]] || refuse_word "$2"
name=$1 folder=${2:+$(realpath -m -- "$2")}
need rt 'the Rattle kit'
cd "$(dirname "$0")/.."
: "${folder:=$PWD}"

# What neither Rust nor the language of proofs takes for a name.
words_of_rattle='abbrev as async await axiom break const continue core crate data deriving do dyn elim else ensures enum extern false final
    fn for ghost if impl in infix infixl infixr let loop match mod module move mut mutual open package pub record ref requires return ruleset
    self static std struct super trait true type unfold unfoldable unfolding unsafe use where while'

# Prints the line of a crate in a crates.txt.
line_of() { # crate file
    grep -E "^$1[ :]" "$2"
}

# Prints the crates of this repository that a crate stands on, lowest first, as crates.txt has them.
crates_below() { # crate
    tac crates.txt | awk -F '[: ]+' -v crate="$1" -v wanted=" $1 " \
        'index(wanted, " " $1 " ") { if ($1 != crate) print $1; wanted = wanted $0 " " }' | tac
}

[[ $name =~ ^[a-z][a-z0-9_]*$ ]] || refuse "a name is lowercase letters, digits and _, and not '$name'"
[[ $name != *__* ]] || refuse "a name has no two underscores in a row, as '$name' has"
[[ ! $words_of_rattle =~ (^|[[:space:]])$name($|[[:space:]]) ]] || refuse "$name is a word of the language"
[ ! -e "$(dirname "$(rt doc)")/rlibs/$name.rlib" ] || refuse "the kit has a library $name"
[ ! -e "$folder" ] || [ -d "$folder" ] || refuse "$folder is no folder"
[ ! -e "$folder/crates/$name" ] || refuse "$folder/crates/$name is there already"
[ ! -f "$folder/crates.txt" ] || ! line_of "$name" "$folder/crates.txt" > /dev/null || refuse "$folder/crates.txt has a line for $name already"

mkdir -p "$folder/crates"
[ -e "$folder/crates.txt" ] || echo '# NAME: the crates that it stands on' > "$folder/crates.txt"
# Its last line may have no end.
sed -i "\$a\\" "$folder/crates.txt"
for crate in $(crates_below example); do
    if [ ! -e "$folder/crates/$crate" ]; then
        progress "copying $crate"
        mkdir "$folder/crates/$crate"
        tar -C "crates/$crate" --exclude=./out -cf - . | tar -C "$folder/crates/$crate" -xf -
    fi
    line_of "$crate" "$folder/crates.txt" > /dev/null || line_of "$crate" crates.txt >> "$folder/crates.txt"
done

mkdir "$folder/crates/$name"
cp -R crates/example/{src,proofs,stdin,stdout} "$folder/crates/$name/"
find "$folder/crates/$name" '(' -name '*.rt' -o -name '*.antt' ')' -exec sed -i "s/\bRattle\.example\./Rattle.$name./g" {} +
echo "$name:$(line_of example crates.txt | cut -d: -f2)" >> "$folder/crates.txt"

progress "wrote $folder/crates/$name, and its line in crates.txt"
progress "next: cd $folder/crates/$name && rt run < stdin"
