# Completion of femem-cli for bash. After `--` it is that of the command that is run.
_femem_cli_names() { femem-cli arrays 2> /dev/null | cut -d ' ' -f 1; }

_femem_cli() {
  local word=${COMP_WORDS[COMP_CWORD]} before=${COMP_WORDS[COMP_CWORD - 1]} command='' first at
  local options='--socket --timeout --nowait --quiet --reconnect-timeout --session --session-file --key -E --in --takeover-after
    --capacity --attempts --away-after -n --json -e --store --program --owners --svg --once --every --help --version'
  local commands='create find remove arrays readfe readff readxx writeef writeff writexf purge int_fetch_add first counter
    channel queue lock owner break semaphore barrier forget sessions report graph top help'
  COMPREPLY=()
  for ((at = 1; at < COMP_CWORD; at++)); do
    case ${COMP_WORDS[at]} in
      --) declare -F _command_offset > /dev/null && _command_offset $((at + 1)); return ;;
      --socket | -s | --session-file | --store | --program | --key | --in | --timeout | -t | --session | -E | --capacity | \
        --attempts | --every | --*-timeout | --*-after) ((at++)) ;;
      -*) ;;
      *) [ -n "$command" ] || { command=${COMP_WORDS[at]}; first=$at; } ;;
    esac
  done
  case $before in
    --socket | -s | --session-file | --store | --program) mapfile -t COMPREPLY < <(compgen -f -- "$word"); return ;;
  esac
  local place=$((COMP_CWORD - ${first:-COMP_CWORD})) choice=$commands
  [ -z "$command" ] || choice=
  case $command:$place in
    semaphore:* | barrier:* | first:[2468]*) choice=$(_femem_cli_names) ;;
    first:1) choice='readfe readff' ;;
    first:*) choice= ;;
    report:* | graph:* | top:* | help:* | arrays:* | sessions:* | forget:* | create:1) ;;
    ?*:1) choice=$(_femem_cli_names) ;;
    channel:2) choice='put take' ;;
    queue:2) choice='put take aside drop' ;;
    lock:2 | queue:3) choice=-- ;;
    create:3) choice='full empty' ;;
  esac
  [[ $word != -* ]] || choice="$choice $options"
  mapfile -t COMPREPLY < <(compgen -W "$choice" -- "$word")
}
complete -F _femem_cli femem-cli
