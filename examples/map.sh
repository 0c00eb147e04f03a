# An index of the words of a text, in a map of the objects 0 to 63: the value of a word has the numbers of the lines where it
# stands, of two bytes each. A word is set at each line that has it. The run is killed when all are in, and what the first
# hundred lines have is forced.
text=$(dirname "$0")/../LICENSE-APACHE

# the lines that put the words in which stand between two lines of the text
words() {
  awk -v first="$1" -v last="$2" '
    BEGIN { for (i = 97; i <= 122; i++) hex[sprintf("%c", i)] = sprintf("%02x", i) }
    {
      n = split(tolower($0), word, /[^a-z]+/)
      for (i = 1; i <= n; i++) if (word[i] != "" && at[word[i]] != NR) {
        at[word[i]] = NR
        lines[word[i]] = lines[word[i]] sprintf("%04x", NR)
        if (NR < first || NR > last) continue
        key = ""
        for (j = 1; j <= length(word[i]); j++) key = key hex[substr(word[i], j, 1)]
        print "mset 0 63 " key " " lines[word[i]]
      }
    }' "$text"
}

# the words that an answer has, with the numbers of their lines
said() {
  tr ' ' '\n' | awk -F : '
    BEGIN { for (i = 0; i < 256; i++) number[sprintf("%02x", i)] = i }
    {
      word = ""
      for (j = 1; j < length($1); j += 2) word = word sprintf("%c", number[substr($1, j, 2)])
      printf "%s:", word
      for (j = 1; j < length($2); j += 4) printf " %d", number[substr($2, j, 2)] * 256 + number[substr($2, j + 2, 2)]
      print ""
    }'
}

# what begins with `dis`, and how many words there are
ask() {
  echo 'mrange 0 63 646973 646974 100' | redo run | said
  echo 'mcount 0 63 - -' | redo run
}

redo init 64 1024 1048576 --pages
mkfifo script
redo run >answers <script &
exec 3>script
{ words 1 100; echo force; words 101 999; } >&3
for i in {1..2500}; do
  [ "$(wc -l <answers)" -gt "$(words 1 999 | wc -l)" ] && break
  sleep 0.02
done
{ kill -9 $!; wait $!; } 2>/dev/null
cut -d ' ' -f 1 answers | uniq -c | sed 's/^ *//'

echo '# what was forced is there after that'
ask

echo '# the other lines are read again'
{ words 101 999; echo force; } | redo run | cut -d ' ' -f 1 | uniq -c | sed 's/^ *//'
ask

echo '# the last two words, and those beside `copy`; then one leaves'
{ echo 'mback 0 63 - - 2'; echo 'mprev 0 63 636f7079'; echo 'mnext 0 63 636f7079'; } | redo run | said
redo run <<END | sed 's/^forced .*/forced/'
mget 0 63 646973636c61696d6572
mdel 0 63 646973636c61696d6572
mget 0 63 646973636c61696d6572
mdel 0 63 646973636c61696d6572
force
mcount 0 63 - -
END
