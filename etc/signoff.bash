# Completion of signoff's words for bash. Made by bench/help.py from the text of signoff --help.
_signoff() {
  local word=${COMP_WORDS[COMP_CWORD]} before=${COMP_WORDS[COMP_CWORD - 1]} options=
  if [ "$COMP_CWORD" = 1 ]; then
    COMPREPLY=($(compgen -W "check ops trace least wave lines meet machine walk clauses accept demo serve migrate --help --version --memory" -- "$word"))
    return
  fi
  case $before in
    --store) COMPREPLY=($(compgen -f -- "$word")); return ;;
    --budget|--workers|--timeout) return ;;
  esac
  case ${COMP_WORDS[1]} in
    check) options="--budget --workers --store --progress" ;;
    ops) options="--budget --workers --store --progress" ;;
    trace) options="--budget --workers --store --progress" ;;
    least) options="--budget --workers --store --progress" ;;
    wave) options="--budget --workers --store --progress" ;;
    meet) options="--budget --workers --store --progress" ;;
    machine) options="--budget --workers --store --progress --dot" ;;
    walk) options="--budget --workers --store --progress" ;;
    accept) options="--store" ;;
    serve) options="--budget --workers --progress --timeout --replied" ;;
  esac
  case $word in
    -*) COMPREPLY=($(compgen -W "$options --help" -- "$word")) ;;
    *) COMPREPLY=($(compgen -f -- "$word")) ;;
  esac
}
complete -o filenames -F _signoff signoff
