# Standard error says which line of a script was the first that was bad, and what is wrong with it. Lines are counted from 1,
# those that get no answer too.
redo init 4 64 4224
bad() { redo run 2>&1 >/dev/null; }
printf '# objects\n\nput 0 aa\nput 0\ncut 1 2\n' | bad
printf 'get 0\nfetch 0\n' | bad
printf 'Get 0' | bad
printf 'tget 0 3 00112233445566778899aabbccddeeff00112233445566778899aabbccddeeff00\n' | bad
printf 'force\nforce now\n' | bad
printf 'get 9\nend\n' | bad

# each form of docs/SCRIPT.md is told where its word begins a line that has too many fields
script=$(dirname "$(readlink -f "$(command -v redo)")")/docs/SCRIPT.md
sed -n '/^| Line |/,/^$/s/^| `\([^`]*\)`.*/\1/p' "$script" >forms
cut -d ' ' -f 1 forms | while read -r word; do printf '%s , , , , ,\n' "$word" | bad; done | sed 's/.*expected "\(.*\)"/\1/' >told
diff forms told && echo "each of $(wc -l <forms) forms is told"
