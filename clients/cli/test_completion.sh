#!/bin/bash
# The completion for bash, word by word; zsh's is only read, where zsh is there. The lists agree with --help.
. "$(dirname "$0")/testing.sh"
mkdir bin
printf '#!/bin/sh\nexec "%s" --program "%s" "$@"\n' "$cli" "$program" > bin/femem-cli
chmod +x bin/femem-cli
PATH=$folder/bin:$PATH
x create slot 2
x create spare 2
. "$here/femem-cli.bash"

# completes DUE WORD ..: what the last word may be.
completes() {
  due=$1
  shift
  COMP_WORDS=(femem-cli "$@") COMP_CWORD=$#
  _femem_cli
  is "completion of $*" "${COMPREPLY[*]}" "$due"
}
completes "remove readfe readff readxx report" re
completes "slot spare" readfe s
completes "slot spare" --timeout 3 --json remove ""
completes "slot" owner sl
completes "put take" channel slot ""
completes "aside" queue slot a
completes "--" lock slot ""
completes "full" create new 2 f
completes "" create ""
completes "" report ""
completes "--takeover-after" lock slot --ta
completes "--session --session-file" --se
completes "settings.toml" --session-file set

# Each command and option of --help is in both completions and the manual page, and no other.
sorted() { tr -s ' \n' '\n\n' | sed '/^$/d' | sort -u; }
commands=$(x --help | sed -n 's/^  \([a-z_]*\).*/\1/p' | sorted)
COMP_WORDS=(femem-cli "") COMP_CWORD=1
_femem_cli
is "bash's commands" "$(printf '%s\n' "${COMPREPLY[@]}" | sorted)" "$commands"
is "zsh's commands" "$(tr '\n' ' ' < "$here/femem-cli.zsh" | sed "s/.*command:(\([a-z_ ]*\)).*/\1/" | sorted)" "$commands"
is "the page's commands" "$(sed -n 's/^\.BI* "\{0,1\}\([a-z_]*\).*/\1/p' "$here/femem-cli.1" | sorted |
  grep -xF "$commands" | sorted)" "$commands"
options=$(x --help | grep -o -- ' --*[a-zE][a-z-]*' | sorted)
COMP_WORDS=(femem-cli -)
_femem_cli
is "bash's options" "$(printf '%s\n' "${COMPREPLY[@]}" | sorted)" "$options"
for option in $options; do
  is "$option of zsh" "$(grep -c -e "[{',]${option}[[},']" "$here/femem-cli.zsh")" 1
  is "$option of the page" "$(tr -d '\\' < "$here/femem-cli.1" | grep -c -m 1 -e "^\.B.*$option\b")" 1
done
if command -v zsh > /dev/null; then
  zsh -n "$here/femem-cli.zsh" 2> said
  is "zsh reads it" "$? $(cat said)" "0 "
fi
if command -v man > /dev/null; then
  is "the manual page" "$(LC_ALL=C.UTF-8 MANWIDTH=120 man --warnings -l "$here/femem-cli.1" 2>&1 > /dev/null)" ""
fi
is "the page's version" "$(head -n 1 "$here/femem-cli.1" | grep -o 'femem [0-9.]*[~0-9a-z.]*')" "$(x --version | sed s/-cli//)"
done_testing
