# Completion of the command `tora` for bash: ./tora install puts it where bash-completion finds it; or: source dev/completion/tora.bash

_tora() {
  local word=${COMP_WORDS[COMP_CWORD]} before=${COMP_WORDS[COMP_CWORD - 1]} command='' words='-v --verbose -h --help' at files=''
  COMPREPLY=()
  for ((at = 1; at < COMP_CWORD; at++)); do
    case ${COMP_WORDS[at]} in
      --times | --channel | --channel-file | --seed | --until | --erasure | --trace | --log) at=$((at + 1)) ;;
      -*) ;;
      *) command=${COMP_WORDS[at]} && break ;;
    esac
  done
  case $before in
    --times | --channel | --seed | --until) return ;;
    --erasure) mapfile -t COMPREPLY < <(compgen -W 'plain remembered' -- "$word") && return ;;
    --log) mapfile -t COMPREPLY < <(compgen -W 'off error warn info debug trace' -- "$word") && return ;;
    --trace | --channel-file) mapfile -t COMPREPLY < <(compgen -f -- "$word") && return ;;
  esac
  case $command in
    '')
      words+=' -V --version replay sim drive node key help'
      # the launcher at the top of the repository has words of its own
      if [ -f "$(dirname "${COMP_WORDS[0]}")/dev/build.py" ]; then words+=' build test install uninstall deb'; fi
      ;;
    replay) words+=' --erasure' ;;
    sim) words+=' --times --channel --seed --channel-file --notice --large --erasure --until --progress --trace' files='*.sim' ;;
    drive) words+=' --times --large --erasure --record' ;;
    node) words+=' --check --log --log-time' files='*.toml' ;;
    help) words='replay sim drive node key' ;;
    install | uninstall) words='-h --help' files='*/' ;;
    build | test) words='-h --help --jobs' ;;
    deb) words='-h --help --unproved --twice --out' files='*/' ;;
  esac
  mapfile -t COMPREPLY < <(compgen -W "$words" -- "$word")
  [[ $word != -* && -n $files ]] || return 0
  mapfile -t -O "${#COMPREPLY[@]}" COMPREPLY < <(
    compgen -d -- "$word"
    [ "$files" = '*/' ] || compgen -f -X "!$files" -- "$word"
  )
}
complete -o filenames -F _tora tora
