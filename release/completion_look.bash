# Completion of the words of `redo_log` and `redo_check` in bash.
_redo_look() {
  local word=${COMP_WORDS[COMP_CWORD]} words="--glance --help"
  case ${COMP_WORDS[0]##*/} in
    redo_log) words="--from --to --object --kind --stats --follow $words" ;;
  esac
  [ "$COMP_CWORD" != 1 ] || words="-C $words"
  case ${COMP_WORDS[COMP_CWORD - 1]} in
    -C) mapfile -t COMPREPLY < <(compgen -d -- "$word") ;;
    --kind)
      mapfile -t COMPREPLY < <(compgen -W "put copy append cut sort swap exec aread awrite leaf_put leaf_delete split_child split_root
        pexec pread pwrite hash_begin bucket_put bucket_delete bucket_split page_put page_set page_delete page_part
        page_absorb page_join page_keep page_turn page_turn_two page_root page_free identity check" -- "$word")
      ;;
    --from | --to | --object) COMPREPLY=() ;;
    *) mapfile -t COMPREPLY < <(compgen -W "$words" -- "$word") ;;
  esac
}
complete -F _redo_look redo_log redo_check
