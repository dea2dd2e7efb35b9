# Completion of mvt for fish.
complete -c mvt -f
complete -c mvt -n __fish_use_subcommand -a check -d 'report on a tile, or on files'
complete -c mvt -n __fish_use_subcommand -a explain -d 'say where and why a tile is refused'
complete -c mvt -n __fish_use_subcommand -a lint -d 'say what viewers stumble over'
complete -c mvt -n __fish_use_subcommand -a fields -d 'list the top-level fields'
complete -c mvt -n __fish_use_subcommand -a show -d 'show a tile as JSON'
complete -c mvt -n __fish_use_subcommand -a draw -d 'draw a tile as SVG'
complete -c mvt -n __fish_use_subcommand -a rewrite -d 'write a tile in its canonical form'
complete -c mvt -n __fish_use_subcommand -a mend -d 'write a tile in its canonical form, mended'
complete -c mvt -n __fish_use_subcommand -a extract -d 'write the named layers'
complete -c mvt -n __fish_use_subcommand -l version -s V -d 'print the version'
complete -c mvt -n __fish_use_subcommand -a help -d 'show the help'
complete -c mvt -n '__fish_seen_subcommand_from check explain lint' -F
