# The forms of words, lines and statuses are the same in docs/SCRIPT.md, on the manual page, in `redo run --help`, in the usage line,
# in the tables of the program and of the shell, and where the command completes them.
top=$(dirname "$(readlink -f "$(command -v redo)")")
script=$top/docs/SCRIPT.md page=$top/docs/redo.1

# the first cells of a table of docs/SCRIPT.md that has this head
cells() { sed -n "/^| $1 |/,/^\$/s/^| \`\([^\`]*\)\`.*/\1/p" "$script"; }
# a section of the manual page, without its macros and quotes
section() { sed -n "/^\.SH \"*$1/,/^\.SH/p" "$page" | sed 's/\\\([-&]\)/\1/g; s/"//g'; }
alike() {
  if diff -u --label "$2" <(sort "$3") --label "$4" <(sort "$5"); then echo "$1: alike"; fi
}

cells Line >lines
"$top/docs/forms" --check
redo run --help | sed -n '/^Lines:/,/^$/s/^  \([a-z].*[^ ]\)   *[^ ].*/\1/p' >lines.help
alike "lines of the help" SCRIPT lines --help lines.help
sed -n 's/^    Form("\([a-z][^"]*\)".*/\1/p' "$top/capi/redo/shell/forms.py" >lines.shell
alike "lines of the shell" SCRIPT lines shell/forms.py lines.shell
sed -n 's/.*text: "\([^"]*\)".*/\1/p' "$top/crates/script_lines/src/forms.rt" >lines.table
alike "lines of the program's table" SCRIPT lines forms.rt lines.table

# (`-C` stands before the other words, and `backup` and `shell` are words of the command alone)
cells Words | sed -n '/ -C /d; s/^redo //p' >words
redo 2>/dev/null | sed 's/^usage: redo //; s/ | /\n/g' >words.usage
section SYNOPSIS | sed '/^\.SH/d; /^\.br/d; /-C/d; /DIR/d; /FOLDER/d; s/^\.[A-Z]* *//' | tr '\n' ' ' | sed 's/redo/\n/g' | sed 's/^ *//; s/ *$//; s/  */ /g; /^$/d; /^backup/d; /^shell/d' >words.page
alike "words of the usage line" SCRIPT words usage words.usage
alike "words of the manual page" SCRIPT words redo.1 words.page
cut -d ' ' -f 1 words | sed '$a backup\nshell' >first
sed -n 's/.*compgen -W "\([^-]*\) help .*/\1/p' "$top/release/completion.bash" | tr ' ' '\n' >first.completion
alike "words that are completed" SCRIPT first completion first.completion

sed -n '/^| Status |/,/^$/s/^| \([0-9, ]*\) |.*/\1/p' "$script" | tr -d ' ' | tr ',' '\n' >statuses
section 'EXIT STATUS' | sed -n '/^\.TP/{n;s/^\.BR* //p}' | tr -d ' ' | tr ',' '\n' >statuses.page
alike "statuses of the manual page" SCRIPT statuses redo.1 statuses.page
