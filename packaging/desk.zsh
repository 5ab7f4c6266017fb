#compdef desk
autoload -Uz bashcompinit && bashcompinit
source /usr/share/bash-completion/completions/desk
_bash_complete -o nospace -o default -o bashdefault -F _python_argcomplete
