# Completions of cordkit for fish. Files are offered where no rule says otherwise.

set --local commands check show cut join find cmp edit migrate log blame apply commit restore serve help
set --local none "not __fish_seen_subcommand_from $commands"

complete -c cordkit -n $none -f
complete -c cordkit -s h -l help -d 'Print help'
complete -c cordkit -n $none -s V -l version -d 'Print version'
complete -c cordkit -l explain -d 'Say what a refusal or a fault means'
complete -c cordkit -l quiet -d 'Tell nothing of how far long work is'
complete -c cordkit -n $none -a check -d 'Say whether a saved session is accepted, or by which fault it is refused'
complete -c cordkit -n $none -a show -d 'Write the text of one revision of a saved session'
complete -c cordkit -n $none -a cut -d 'Write a part of a file'
complete -c cordkit -n $none -a join -d 'Write files, one behind the other'
complete -c cordkit -n $none -a find -d 'Print the place at which a pattern first occurs in a file'
complete -c cordkit -n $none -a cmp -d 'Say whether a file is less than another, equal or greater, byte by byte'
complete -c cordkit -n $none -a edit -d 'Edit a text on the screen, and save the session'
complete -c cordkit -n $none -a migrate -d 'Write a saved session anew, in the latest version of its format'
complete -c cordkit -n $none -a log -d 'Write a saved session as a script of its commands'
complete -c cordkit -n $none -a blame -d 'Tell where each byte of a revision\'s text comes from'
complete -c cordkit -n $none -a apply -d 'Write the session that a script of commands makes'
complete -c cordkit -n $none -a commit -d 'Keep what a file holds now as the next state of a saved session'
complete -c cordkit -n $none -a restore -d 'Give a file the text of a revision, once what it holds is committed'
complete -c cordkit -n $none -a serve -d 'Take commands and questions for a saved session, one per line, and answer each'
complete -c cordkit -n $none -a help -d 'Print the help of the program or of a command'
complete -c cordkit -n '__fish_seen_subcommand_from check show migrate log blame apply commit restore serve' -l at-most -x -d 'The most looks at nodes that the check may take'
complete -c cordkit -n '__fish_seen_subcommand_from check migrate log' -l length -x -d 'How many bytes a source has whose file is not given'
complete -c cordkit -n '__fish_seen_subcommand_from log' -l brief -d 'Write at most 60 bytes of each text'
complete -c cordkit -n '__fish_seen_subcommand_from blame' -l start -x -d 'The place of the first byte'
complete -c cordkit -n '__fish_seen_subcommand_from blame' -l count -x -d 'How many bytes'
complete -c cordkit -n '__fish_seen_subcommand_from apply' -l onto -r -d 'Go on from this image'
complete -c cordkit -n '__fish_seen_subcommand_from find' -l all -d 'Print each place'
complete -c cordkit -n '__fish_seen_subcommand_from edit' -l onto -r -d 'Go on from this image'
complete -c cordkit -n '__fish_seen_subcommand_from edit' -l keep -r -d 'Keep the keys here until they are saved'
complete -c cordkit -n '__fish_seen_subcommand_from edit' -l session -r -d 'Go on with the session of this file'
complete -c cordkit -n '__fish_seen_subcommand_from edit' -l no-clobber -d 'Refuse an image that is there'
complete -c cordkit -n '__fish_seen_subcommand_from edit' -l replace -d 'Keep nothing of an image that is there'
complete -c cordkit -n '__fish_seen_subcommand_from edit' -l discard -d 'Take away a file of keys'
complete -c cordkit -n '__fish_seen_subcommand_from help' -f -a "$commands"
