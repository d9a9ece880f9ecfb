#compdef snomon snomon-listing snomon-site snomon-parts snomon-deck
# Completion for zsh: that of bash, which asks the programs for their help.
autoload -Uz bashcompinit && bashcompinit
source "${${(%):-%x}:A:h}/../../bash-completion/completions/snomon"
