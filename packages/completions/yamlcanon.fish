# fish completion of yamlcanon: its four commands, and names of files after them.
complete -c yamlcanon -n __fish_use_subcommand -f -a canon -d 'Print the canonical text'
complete -c yamlcanon -n __fish_use_subcommand -f -a same -d 'Print whether two files mean the same'
complete -c yamlcanon -n __fish_use_subcommand -f -a events -d 'Print the parse events'
complete -c yamlcanon -n __fish_use_subcommand -f -a check -d 'Print whether a file has these events'
