# Completion of gkey's commands and of the files that they read, for fish.
complete -c gkey -f
complete -c gkey -n __fish_use_subcommand -a match -d 'the classes of entities that are the same'
complete -c gkey -n __fish_use_subcommand -a prove -d 'a proof of all that is the same'
complete -c gkey -n __fish_use_subcommand -a why -d 'a proof that two entities are the same, or that they are not'
complete -c gkey -n __fish_use_subcommand -a check -d 'whether each step of a proof holds'
complete -c gkey -n __fish_use_subcommand -a convert -d 'a proof of either version in version 2'
complete -c gkey -n __fish_use_subcommand -a merge -d 'the graph with one entity in the place of each class'
complete -c gkey -n __fish_use_subcommand -a grow -d 'the classes of a graph with what is added to it'
complete -c gkey -n __fish_use_subcommand -a demo -d 'counts of a graph that the program makes for itself'
complete -c gkey -n __fish_use_subcommand -l help -d 'words, limits and statuses'
complete -c gkey -n __fish_use_subcommand -l version -d 'the version'
complete -c gkey -n __fish_use_subcommand -l large -d 'the same for graphs beyond the limits'
complete -c gkey -n '__fish_seen_subcommand_from match prove why check convert merge grow' -F
complete -c gkey -n '__fish_seen_subcommand_from match prove why merge grow' -l workers -x -d 'how many search, 1 to 64'
