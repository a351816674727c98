# completion of mta_sim for fish
complete -c mta_sim -f -n __fish_use_subcommand -a words -d 'run program words from standard input on one stream'
complete -c mta_sim -f -n __fish_use_subcommand -a asm -d 'assemble a source text to an image'
complete -c mta_sim -f -n __fish_use_subcommand -a list -d 'print the text that means an image'
complete -c mta_sim -f -n __fish_use_subcommand -a run -d 'run an image by a schedule'
complete -c mta_sim -f -n __fish_use_subcommand -a threads -d 'run the processors at once, write the schedule that replays the run'
complete -c mta_sim -f -n __fish_use_subcommand -a debug -d 'answer commands of the debugger'
complete -c mta_sim -F -n '__fish_seen_subcommand_from asm list run threads debug'
