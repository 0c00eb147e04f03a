# Names of files, crates, functions, definitions and clauses in the pages are in the sources (docs/check-names).
# needs: python3 -c 0
"$(dirname "$(readlink -f "$(command -v redo)")")/docs/check-names"
