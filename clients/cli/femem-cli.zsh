#compdef femem-cli
# Completion of femem-cli for zsh. After `--` it is that of the command that is run.
_femem_cli_names() {
  local -a names
  names=(${(f)"$(femem-cli arrays 2> /dev/null | cut -d ' ' -f 1)"})
  compadd -a names
}

_femem_cli_words() {
  local command=$words[1]
  local -i at=${words[(i)--]}
  if ((at < CURRENT)); then
    shift $at words
    ((CURRENT -= at))
    _normal
    return
  fi
  case $command:$CURRENT in
    (report|graph|top|help|arrays|sessions|forget):*|create:2) ;;
    first:2) compadd readfe readff ;;
    first:*) ((CURRENT % 2)) && _femem_cli_names ;;
    *:2) _femem_cli_names ;;
    channel:3) compadd put take ;;
    queue:3) compadd put take aside drop ;;
    lock:3|queue:4) compadd -- -- ;;
    create:4) compadd full empty ;;
  esac
}

_arguments -S \
  '(-s --socket)'{-s,--socket}'[the socket]:path:_files' \
  '(-t --timeout)'{-t,--timeout}'[how long it waits]:seconds:' \
  '(-n --nowait)'{-n,--nowait}'[does not wait]' '(-q --quiet)'{-q,--quiet}'[does not say that it was late]' \
  '--reconnect-timeout[how long a lost server is tried again]:seconds:' \
  '--session[the session]:number:' '--session-file[the session in a file]:file:_files' \
  '--key[once under this key]:key:' '-E[the status when late]:status:' \
  '--in[the array of locks by key]:array:' '--takeover-after[takes the lock from an absent owner]:seconds:' \
  '--capacity[of a queue]:number:' '--attempts[of each job]:number:' '--away-after[of a taker]:seconds:' \
  '--json[answers as JSON]' '-e[ends a list at the first failure]' \
  '--store[the store]:file:_files' '--program[the program femem]:file:_files' \
  '--owners[with the holders of locks]' '--svg[as a picture]' \
  '--once[one view]' '--every[how often]:seconds:' \
  '(-h --help)'{-h,--help}'[a summary]' '(-V --version)'{-V,--version}'[the version]' \
  '1:command:(create find remove arrays readfe readff readxx writeef writeff writexf purge int_fetch_add first counter channel
    queue lock owner break semaphore barrier forget sessions report graph top help)' \
  '*::words:_femem_cli_words'
